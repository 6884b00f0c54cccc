//! The port and the upstream Rust behind one call script that is made from bytes: each answer that both have must be the
//! same, and each answer of the port must have its form (fuzz/form.rs).
//!
//! `fuzz show FILE` writes the script of such bytes, with the port's answers. `fuzz encode` reads a script and writes
//! bytes that make one like it. `fuzz replay FILE..` runs bytes of files, and says how much was compared. `fuzz run BLOCKS
//! WORD..` lets libFuzzer choose the bytes, where this is built with it (tools/fuzz): the list of the archive's blocks, and
//! libFuzzer's own words.
//!
//! At a difference, a wrong form or a byte written outside an allocation the script is written to standard error, and
//! the program aborts.

#[path = "fuzz/allocation.rs"]
mod allocation;
#[path = "fuzz/decode.rs"]
mod decode;
#[path = "fuzz/direct.rs"]
mod direct;
#[path = "fuzz/encode.rs"]
mod encode;
#[path = "fuzz/form.rs"]
mod form;
#[cfg(guided)]
#[path = "fuzz/guided.rs"]
mod guided;
#[allow(dead_code)]
#[path = "port.rs"]
mod port;

use decode::{Decoder, Shown};
use oracle::Oracle;
use oracle::callscript as of_oracle;
use port::Port;
use port::callscript as of_port;
use std::collections::BTreeMap;
use std::process::ExitCode;
use std::sync::Mutex;

const PANIC: &str = "panic";
const OUTSIDE: &str = "outside";
const USAGE: &str = "usage: fuzz show FILE | fuzz replay FILE.. | fuzz encode < SCRIPT | fuzz run BLOCKS WORD..";

#[global_allocator]
static ALLOCATOR: allocation::Bounded = allocation::Bounded;

/// What was run.
#[derive(Default)]
pub struct Counts {
    pub scripts: u64,
    /// calls of the archive alone
    pub direct: BTreeMap<u32, u64>,
    /// lines that ask something, each by its word
    pub asked: BTreeMap<String, u64>,
    pub compared: u64,
    pub panics: u64,
    pub outside: u64,
    /// answers of the port that are compared, by their number
    pub numbers: BTreeMap<String, u64>,
}

impl Counts {
    pub fn print(&self) {
        let Counts { scripts, direct, asked, compared, panics, outside, numbers } = self;
        let calls: u64 = asked.values().sum();
        println!("{scripts} scripts, {calls} calls, {compared} answers compared");
        println!("{panics} panics of the Rust and {outside} answers outside its domain left out");
        fn list(of: &BTreeMap<impl std::fmt::Display, u64>) -> String {
            of.iter().map(|(key, n)| format!("{key} {n}")).collect::<Vec<_>>().join(", ")
        }
        println!("calls: {}", list(asked));
        println!("compared answers, by their number: {}", list(numbers));
        println!("{} calls of the archive alone, by their number: {}", direct.values().sum::<u64>(), list(direct));
    }
}

/// Where the Rust last panicked.
static PANICKED: Mutex<Option<String>> = Mutex::new(None);

/// Both, given the same lines.
#[derive(Default)]
struct Pair {
    oracle: Oracle,
    port: Port,
    script: Vec<String>,
}

impl Pair {
    fn fail(&self, what: &str) -> ! {
        eprintln!("fuzz: {what}; the script:");
        self.script.iter().for_each(|line| eprintln!("{line}"));
        std::process::abort()
    }

    /// The port's answer to a line; and whether the Rust panicked at it.
    fn line(&mut self, line: &decode::Line, counts: &mut Counts) -> (Option<String>, bool) {
        let text = &line.text;
        self.script.push(text.clone());
        *PANICKED.lock().expect("one thread") = None;
        let oracle = of_oracle::answer(&mut self.oracle, text);
        let panicked = PANICKED.lock().expect("one thread").take();
        let port = of_port::answer(&mut self.port, text);
        if line.free {
            return (None, false);
        }
        let said = |answer: Result<Option<String>, String>, none: &str| match answer {
            Ok(answer) => answer,
            Err(_) => Some(none.to_string()),
        };
        let (oracle, port) = (said(oracle, of_oracle::NONE_OF_THESE), said(port, of_port::NONE_OF_THESE));
        if let Some(place) = &panicked {
            // a register past the last is an index of the runner's; all else must be the crate's own
            if place.contains("oracle.rs") && form::word(text) != "register" || place.contains("recordfile.rs") {
                self.fail(&format!("the oracle's own panic at {place}"));
            }
        }
        if let Some(answer) = &port {
            *counts.asked.entry(form::word(text).into()).or_default() += 1;
            if let Err(why) = form::check(text, answer) {
                self.fail(&format!("the port answers {answer:.200}: {why}"));
            }
        }
        match oracle.as_deref() {
            Some(PANIC) => counts.panics += 1,
            Some(OUTSIDE) => counts.outside += 1,
            _ if oracle != port => self.fail(&format!("DIFFERENCE: the Rust {oracle:?}, the port {port:?}")),
            Some(answer) => {
                counts.compared += 1;
                let number = answer.split(' ').next().unwrap_or_default();
                *counts.numbers.entry(number.into()).or_default() += 1;
            }
            None => {}
        }
        (port, panicked.is_some())
    }

    /// The files of a name, as the port has them.
    fn shown(port: &mut Port, name: &str) -> Option<Shown> {
        let answer = of_port::answer(port, &format!("show {name}")).ok()??;
        let words: Vec<&str> = answer.split(' ').collect();
        let ["0", records, length, _] = words[..] else { return None };
        Some((encode::from_hex(records)?, length.parse().ok()?))
    }
}

/// Runs the script of these bytes, and the calls of the archive alone that they are; hands each line of the script, and
/// the port's answer to it, to `see`.
pub fn run(bytes: &[u8], counts: &mut Counts, see: impl FnMut(&str, Option<&str>)) {
    script(bytes, counts, see);
    direct::run(bytes, counts);
    if let Some(what) = allocation::written_outside() {
        eprintln!("fuzz: {what}");
        std::process::abort()
    }
}

fn script(bytes: &[u8], counts: &mut Counts, mut see: impl FnMut(&str, Option<&str>)) {
    counts.scripts += 1;
    let mut pair = Pair::default();
    let mut decoder = Decoder::new(bytes);
    let mut ask = |pair: &mut Pair, lines: Vec<decode::Line>| {
        let mut stopped = false;
        for line in lines {
            let (answer, panicked) = pair.line(&line, counts);
            see(&line.text, answer.as_deref());
            stopped = panicked;
        }
        stopped
    };
    while let Some((machine, lines)) = decoder.next(|name| Pair::shown(&mut pair.port, name)) {
        if let (true, Some(machine)) = (ask(&mut pair, lines), machine) {
            decoder.stopped(machine);
        }
    }
    ask(&mut pair, decoder.end());
}

/// A panic of the oracle is an answer, and its place is noted. Every other is said.
fn note_panics() {
    let say = std::panic::take_hook();
    std::panic::set_hook(Box::new(move |panic| {
        let place = panic.location().map_or(String::new(), |at| format!("{}:{}", at.file(), at.line()));
        // in the port, in this program or in the standard library on their behalf
        if place.contains("hosts/") {
            say(panic);
        }
        *PANICKED.lock().expect("one thread") = Some(place);
    }));
}

fn read(path: &str) -> Result<Vec<u8>, ExitCode> {
    std::fs::read(path).map_err(|e| {
        eprintln!("fuzz: {path}: {e}");
        2.into()
    })
}

fn main() -> ExitCode {
    let words: Vec<String> = std::env::args().skip(1).collect();
    let words: Vec<&str> = words.iter().map(String::as_str).collect();
    note_panics();
    let mut counts = Counts::default();
    let done = match words[..] {
        ["show", path] => read(path).map(|bytes| {
            run(&bytes, &mut counts, |line, answer| {
                println!("{line}{}", answer.map_or(String::new(), |a| format!("\n#= {a}")))
            })
        }),
        ["encode"] => encode::main(),
        ["replay", ref paths @ ..] if !paths.is_empty() => paths
            .iter()
            .try_for_each(|path| read(path).map(|bytes| run(&bytes, &mut counts, |_, _| {})))
            .map(|()| counts.print()),
        #[cfg(guided)]
        ["run", blocks, ref words @ ..] => guided::main(blocks, words),
        _ => {
            eprintln!("{USAGE}");
            Err(2.into())
        }
    };
    done.map_or_else(|status| status, |()| 0.into())
}
