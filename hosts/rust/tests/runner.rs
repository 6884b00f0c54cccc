//! The example host: stops and resumes give the sum of an unbroken run, and failures have their status.

use std::fs;
use std::path::{Path, PathBuf};
use std::process::Command;

const DONE: i32 = 0;
const FAILED: i32 = 1;
const USAGE: i32 = 2;
const STOPPED: i32 = 3;
/// Instructions for each reading, and those after the last one.
const EACH: u64 = 9;
const LAST: u64 = 3;

/// Where the example's files lie.
fn example(name: &str) -> PathBuf {
    Path::new(env!("CARGO_MANIFEST_DIR")).join("../example").join(name)
}

/// A directory of a test's own, removed at its end.
struct Place(PathBuf);

impl Place {
    fn new(name: &str) -> Place {
        let path = std::env::temp_dir().join(format!("latchpebble-{}-{name}", std::process::id()));
        fs::create_dir(&path).unwrap();
        Place(path)
    }

    fn file(&self, name: &str, bytes: &[u8]) -> PathBuf {
        fs::write(self.0.join(name), bytes).unwrap();
        self.0.join(name)
    }

    /// Status and standard output; a failure says something on standard error, and nothing else does.
    fn run(&self, verb: &str, program: &Path, readings: &Path, cycles: &str) -> (i32, String) {
        let words = [verb.as_ref(), program.as_os_str(), readings.as_os_str(), self.0.join("pair").as_os_str()]
            .map(|word| word.to_os_string());
        runner(&[&words[..], &[cycles.into()]].concat())
    }
}

impl Drop for Place {
    fn drop(&mut self) {
        fs::remove_dir_all(&self.0).unwrap();
    }
}

fn runner(words: &[std::ffi::OsString]) -> (i32, String) {
    // this test is DIRECTORY/deps/NAME, and the example DIRECTORY/examples/runner
    let this = std::env::current_exe().unwrap();
    let runner = this.ancestors().nth(2).unwrap().join("examples/runner");
    let output = Command::new(runner).args(words).output().expect("cargo test builds the example");
    let status = output.status.code().expect("it ends by itself");
    assert_eq!(output.stderr.is_empty(), [DONE, STOPPED].contains(&status));
    (status, String::from_utf8(output.stdout).unwrap())
}

fn readings() -> Vec<u64> {
    fs::read_to_string(example("readings.txt")).unwrap().lines().map(|line| line.parse().unwrap()).collect()
}

#[test]
fn every_way_of_stopping_gives_the_sum() {
    let place = Place::new("stops");
    let readings = readings();
    let sum: u64 = readings.iter().map(|x| x - (x >> 13)).sum();
    let all = EACH * readings.len() as u64 + LAST;
    let done = (DONE, format!("done after {all} cycles; sum {sum}\n"));
    let (program, text) = (example("buoyancy.bin"), example("readings.txt"));
    let run = |verb, cycles: u64| place.run(verb, &program, &text, &cycles.to_string());

    assert_eq!(run("start", all), done);
    assert!(!place.0.join("pair").exists());
    for each in [all - 1, 4_000, 999] {
        let (mut verb, mut cycles) = ("start", each);
        while cycles < all {
            let left = readings.len() as u64 - left_of(cycles);
            let said = format!("stopped after {cycles} cycles; {left} readings left\n");
            assert_eq!(run(verb, each), (STOPPED, said));
            (verb, cycles) = ("resume", cycles + each);
        }
        assert_eq!(run(verb, each), done);
    }
    // no cycle at all: stopped where it was
    assert_eq!(run("start", 0), (STOPPED, format!("stopped after 0 cycles; {} readings left\n", readings.len())));
    assert_eq!(run("resume", 0), (STOPPED, format!("stopped after 0 cycles; {} readings left\n", readings.len())));
    assert_eq!(run("resume", u64::MAX), done);
}

/// How many readings are behind after so many cycles: the last but one instruction of each counts it.
fn left_of(cycles: u64) -> u64 {
    (cycles + 1) / EACH
}

#[test]
fn usage() {
    let good = ["start", "a", "b", "c", "1"];
    for words in [&[][..], &good[..4], &["stop", "a", "b", "c", "1"], &["start", "a", "b", "c", "1", "x"]] {
        assert_eq!(runner(&words.iter().map(Into::into).collect::<Vec<_>>()), (USAGE, String::new()));
    }
    for cycles in ["", "-1", "+1", "1 ", "x", "18446744073709551616"] {
        let words = [&good[..4], &[cycles]].concat();
        assert_eq!(runner(&words.iter().map(Into::into).collect::<Vec<_>>()), (USAGE, String::new()));
    }
}

#[test]
fn failures() {
    let place = Place::new("failures");
    let failed = (FAILED, String::new());
    let (program, text) = (example("buoyancy.bin"), example("readings.txt"));
    // no pair, no files
    assert_eq!(place.run("resume", &program, &text, "5"), failed);
    assert_eq!(place.run("start", &place.0.join("none"), &text, "5"), failed);
    assert_eq!(place.run("start", &program, &place.0.join("none"), "5"), failed);
    // readings
    for bad in ["1\n\n2\n", "1\n-2\n", "1 \n", "x\n", "18446744073709551616\n", "\n", "1\r\n"] {
        let readings = place.file("readings", bad.as_bytes());
        assert_eq!(place.run("start", &program, &readings, "5"), failed);
    }
    let many = place.file("readings", "1\n".repeat(4_001).as_bytes());
    assert_eq!(place.run("start", &program, &many, "5"), failed);
    let most = place.file("readings", "1\n".repeat(4_000).as_bytes());
    assert_eq!(place.run("start", &program, &most, "100000"), (DONE, "done after 36003 cycles; sum 4000\n".into()));
    for few in ["", "007"] {
        let readings = place.file("readings", few.as_bytes());
        let (cycles, sum) = if few.is_empty() { (LAST, 0) } else { (EACH + LAST, 7) };
        let said = format!("done after {cycles} cycles; sum {sum}\n");
        assert_eq!(place.run("start", &program, &readings, "100"), (DONE, said));
    }
    // programs: lui, which is none of the nine; a store to the program's own page; no instruction; one too long
    let words = |words: &[u32]| words.iter().flat_map(|word| word.to_le_bytes()).collect::<Vec<_>>();
    let lui = place.file("program", &words(&[0x0000_12b7]));
    assert_eq!(place.run("start", &lui, &text, "1"), failed);
    // addi t0, zero, 2047; addi t0, t0, 2047; addi t0, t0, 2; sd a0, 0(t0)
    let store = place.file("program", &words(&[0x7ff0_0293, 0x7ff2_8293, 0x0022_8293, 0x00a2_b023]));
    assert_eq!(place.run("start", &store, &text, "3").0, STOPPED);
    assert_eq!(place.run("start", &store, &text, "4"), failed);
    assert_eq!(place.run("start", &place.file("program", &[]), &text, "1"), failed);
    assert_eq!(place.run("start", &place.file("program", &[0x13; 3 * 4_096]), &text, "1"), failed);
    // a maximum past 2^64-1
    assert_eq!(place.run("start", &program, &text, "1").0, STOPPED);
    assert_eq!(place.run("resume", &program, &text, "18446744073709551615"), failed);
}
