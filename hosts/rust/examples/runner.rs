//! An example host: runs a program over readings, stops it when its cycles are spent, and resumes it, in this process
//! or another, from the pair of files that it left.
//!
//!     runner start  PROGRAM READINGS PAIR CYCLES
//!     runner resume PROGRAM READINGS PAIR CYCLES
//!
//! Status 0: done, and the sum printed. Status 3: stopped, and the pair written. Status 1: a failure. Status 2: usage.
//! hosts/c/runner.c is the same in C: a machine that one stopped is resumed by the other.

mod interpreter;

use interpreter::{Core, End, run};
use latchpebble::{
    FLAG_EXECUTABLE, FLAG_FREEZED, LoadingAction, Machine, RISCV_PAGESIZE, Result, Snapshot, Sources, pair,
    round_page_up,
};
use std::ffi::OsString;
use std::io::Write;
use std::path::Path;
use std::process::ExitCode;

const USAGE: &str = "\
usage: runner start  PROGRAM READINGS PAIR CYCLES
       runner resume PROGRAM READINGS PAIR CYCLES
PROGRAM is a program's bytes, READINGS a text with a decimal number on each line, PAIR the directory of the pair of
files, CYCLES how many instructions are run at most.";

const VERSION: u32 = 1;
const MACHINE_PAGES: u64 = 16;
/// The items of the sources.
const PROGRAM: u64 = 1;
const READINGS: u64 = 7;
const MOST_READINGS: usize = 4_000;
/// Where things stand in memory.
const CODE: u64 = 0x1000;
const DATA: u64 = 0x3064;
const SUM: u64 = 0xf000;
const SIZE_WORD: u64 = 0xfff8;
/// The program's registers: the readings' address, how many are left, and where the sum goes.
const A0: usize = 10;
const A1: usize = 11;
const A2: usize = 12;

const DONE: u8 = 0;
const FAILED: u8 = 1;
const BAD_USAGE: u8 = 2;
const STOPPED: u8 = 3;

fn main() -> ExitCode {
    let words: Vec<OsString> = std::env::args_os().skip(1).collect();
    let [verb, program, readings, pair, cycles] = &words[..] else { return usage() };
    let Some(cycles) = cycles.to_str().and_then(decimal) else { return usage() };
    let resumed = match verb.to_str() {
        Some("start") => false,
        Some("resume") => true,
        _ => return usage(),
    };
    match host(resumed, program.as_ref(), readings.as_ref(), pair.as_ref(), cycles) {
        Ok(status) => ExitCode::from(status),
        Err(failure) => {
            eprintln!("runner: {failure}");
            ExitCode::from(FAILED)
        }
    }
}

fn usage() -> ExitCode {
    eprintln!("{USAGE}");
    ExitCode::from(BAD_USAGE)
}

fn host(resumed: bool, program: &Path, readings: &Path, pair: &Path, cycles: u64) -> Outcome<u8> {
    let read = |path: &Path| std::fs::read(path).map_err(|error| format!("{}: {error}", path.display()));
    let (program, text) = (read(program)?, read(readings)?);
    let numbers = numbers(&text).map_err(|error| format!("{}: {error}", readings.display()))?;

    let mut sources = Sources::new();
    sources.add(PROGRAM, &program);
    sources.add(READINGS, &numbers);
    let mut machine = said("new", Machine::new(VERSION, 0, MACHINE_PAGES * RISCV_PAGESIZE))?;
    if resumed {
        said("resume", machine.resume(&sources, &pair::read(pair)?))?;
    } else {
        start(&mut machine, &program, &sources, numbers.len() as u64)?;
    }
    let maximum = machine.cycles().checked_add(cycles);
    machine.set_max_cycles(maximum.ok_or_else(|| format!("{cycles} cycles more are past 2^64-1"))?);

    match run(&mut machine) {
        End::Spent => {
            let mut snapshot = Snapshot::for_pages(MACHINE_PAGES);
            said("make_snapshot", machine.make_snapshot(&mut snapshot))?;
            pair::write(pair, &snapshot)?;
            let left = machine.registers()[A1];
            writeln!(std::io::stdout(), "stopped after {} cycles; {left} readings left", machine.cycles())?;
            Ok(STOPPED)
        }
        End::Ecall => {
            let sum = said("load64", machine.memory().load64(SUM))?;
            writeln!(std::io::stdout(), "done after {} cycles; sum {sum}", machine.cycles())?;
            Ok(DONE)
        }
        End::Unknown(word, pc) => Err(format!("unknown instruction {word:#010x} at {pc:#x}").into()),
        End::Refused(refusal, pc) => Err(format!("the instruction at {pc:#x}: {refusal}").into()),
    }
}

/// Loads the program, and the readings with their so many bytes, into a fresh machine.
fn start(machine: &mut Machine, program: &[u8], sources: &Sources, bytes: u64) -> Outcome<()> {
    let (length, flags) = (program.len() as u64, FLAG_FREEZED | FLAG_EXECUTABLE);
    let loaded =
        LoadingAction { addr: CODE, size: round_page_up(length), flags, source: 0..length, offset_from_addr: 0 };
    said("init_pages", machine.memory_mut().init_pages(loaded.addr, loaded.size, flags, program, 0))?;
    said("mark_program", machine.mark_program(&[loaded], PROGRAM, 0))?;
    said("context_store_bytes", machine.context_store_bytes(sources, DATA, READINGS, 0, bytes, SIZE_WORD))?;
    let size = said("load64", machine.memory().load64(SIZE_WORD))?;
    for (register, value) in [(A0, DATA), (A1, size / 8), (A2, SUM)] {
        said("set_register", machine.set_register(register, value))?;
    }
    machine.update_pc(CODE);
    machine.commit_pc();
    Ok(())
}

/// The numbers of a text, one on each line, as 64-bit little-endian ones.
fn numbers(text: &[u8]) -> std::result::Result<Vec<u8>, String> {
    let mut bytes = vec![];
    let text = String::from_utf8_lossy(text);
    for (line, word) in (1..).zip(text.split_terminator('\n')) {
        let number = decimal(word).ok_or_else(|| format!("line {line}: no decimal number of 64 bits"))?;
        if line > MOST_READINGS {
            return Err(format!("line {line}: more than {MOST_READINGS} readings"));
        }
        bytes.extend(number.to_le_bytes());
    }
    Ok(bytes)
}

fn decimal(word: &str) -> Option<u64> {
    if word.bytes().all(|byte| byte.is_ascii_digit()) { word.parse().ok() } else { None }
}

type Outcome<T> = std::result::Result<T, Box<dyn std::error::Error>>;

/// A refused call ends the host: which call, its number and what it means.
fn said<T>(call: &str, answer: Result<T>) -> Outcome<T> {
    answer.map_err(|refusal| format!("{call}: {refusal}").into())
}

impl Core for Machine {
    type Refusal = latchpebble::Error;

    fn pc(&self) -> u64 {
        self.pc()
    }
    fn set_pc(&mut self, pc: u64) {
        self.update_pc(pc);
        self.commit_pc();
    }
    fn register(&self, i: usize) -> u64 {
        self.registers()[i]
    }
    fn set_register(&mut self, i: usize, value: u64) {
        self.set_register(i, value).expect("an instruction's register is below 32");
    }
    fn cycles(&self) -> u64 {
        self.cycles()
    }
    fn set_cycles(&mut self, cycles: u64) {
        self.set_cycles(cycles);
    }
    fn max_cycles(&self) -> u64 {
        self.max_cycles()
    }
    fn fetch(&mut self, addr: u64) -> Result<u32> {
        self.memory().execute_load32(addr)
    }
    fn load64(&mut self, addr: u64) -> Result<u64> {
        self.memory().load64(addr)
    }
    fn store64(&mut self, addr: u64, value: u64) -> Result<()> {
        self.memory_mut().store64(addr, value)
    }
}
