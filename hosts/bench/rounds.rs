//! How a case is timed and said.
//!
//! A case is a round of equal calls. Both sides make it in turn, many times over, and a side's time is its best round.
//! Both sides' answers are added up: every number must be 0, and the sums the same.

use crate::archive::{ContextStored, Found, Indices, Made, Recorded, Stored, Value};
use crate::sides::{BEFORE_RUNS, PAGE};
use ckb_vm::snapshot2::Snapshot2;
use ckb_vm::{Bytes, Error};
use std::arch::asm;
use std::time::Instant;

const ROUNDS: usize = 400;
/// The rounds of a case whose call takes so many nanoseconds or more.
const FEW_ROUNDS: usize = 100;
const LONG: f64 = 20_000.0;

// ---- answers

/// A call's answer: its number, and what it answered as one value, 0 where that is nothing.
pub trait Answered {
    fn answer(self) -> (u32, u64);
}

/// What a call of the Rust answered.
pub trait Valued {
    fn value(self) -> u64;
}

macro_rules! valued {
    ($($type:ty: $it:pat => $value:expr;)*) => {
        $(impl Valued for $type {
            fn value(self) -> u64 {
                let $it = self;
                $value
            }
        })*
    };
}

valued! {
    (): () => 0;
    u8: x => x.into();
    u16: x => x.into();
    u32: x => x.into();
    u64: x => x;
    Bytes: bytes => bytes.len() as u64;
    (u64, u64): (first, second) => first.wrapping_add(second);
    (Bytes, u64): (bytes, full) => bytes.len() as u64 + full;
    Snapshot2<u64>: made => (BEFORE_RUNS + made.pages_from_source.len() + made.dirty_pages.len()) as u64;
}

impl<T: Valued> Answered for Result<T, Error> {
    fn answer(self) -> (u32, u64) {
        match self {
            Ok(done) => (0, done.value()),
            Err(_) => (1, 0),
        }
    }
}

macro_rules! answered {
    ($($type:ty: $it:pat => $answer:expr;)*) => {
        $(impl Answered for $type {
            fn answer(self) -> (u32, u64) {
                let $it = self;
                $answer
            }
        })*
    };
}

answered! {
    (): () => (0, 0);
    u32: number => (number, 0);
    u64: value => (0, value);
    usize: value => (0, value as u64);
    Stored: stored => (stored.number, 0);
    Value: value => (value.number, value.value);
    Indices: indices => (indices.number, indices.first.wrapping_add(indices.last));
    Found: found => (found.number, found.count + found.full);
    ContextStored: stored => (stored.number, stored.stored.wrapping_add(stored.full));
    Recorded: record => (record.number, record.offset);
    Made: made => (made.number, made.records);
}

/// A side's answers so far.
#[derive(Default)]
pub struct Told {
    numbers: u32,
    sum: u64,
}

/// Stops the program where a number is not 0, or the two sides' answers differ.
pub fn alike(case: &str, rust: &Told, port: &Told) {
    assert!(rust.numbers == 0, "{case}: a call of the Rust has another number than it must");
    assert!(port.numbers == 0, "{case}: a call of the port has another number than it must");
    assert!(rust.sum == port.sum, "{case}: the answers differ");
}

// ---- rounds

/// How many calls of that many bytes a round has: it takes some tens of microseconds.
pub fn calls_of(bytes: usize) -> u64 {
    (3_000_000 / (bytes as u64 + 1_500)).max(1)
}

/// Nanoseconds a call of a round.
pub fn round<A: Answered>(told: &mut Told, calls: u64, mut call: impl FnMut(u64) -> A) -> f64 {
    let (mut numbers, mut sum) = (0, 0u64);
    let start = Instant::now();
    for i in 0..calls {
        let (number, value) = call(i).answer();
        numbers |= number;
        sum = sum.wrapping_add(value);
        // no instruction; to the compiler all memory is another from here on
        unsafe { asm!("", options(nostack, preserves_flags)) }
    }
    let time = start.elapsed().as_nanos() as f64;
    told.numbers |= numbers;
    told.sum = told.sum.wrapping_add(sum);
    time / calls as f64
}

/// Nanoseconds of what is not a call: a round of it, so many times.
pub fn plain_round(times: u64, what: impl FnMut(u64)) -> f64 {
    round(&mut Told::default(), times, what)
}

/// A side: nanoseconds a call of its next round.
pub type Side<'a> = &'a mut dyn FnMut() -> f64;

/// The best of each side's rounds, the sides in turn. A side has two rounds together, so that in the second its own
/// bytes are where the caches have them, and not those of the side before.
pub fn best_of<const N: usize>(mut sides: [Side; N]) -> [f64; N] {
    let mut best = [f64::MAX; N];
    let mut rounds = ROUNDS;
    let mut done = 0;
    while done < rounds {
        for (best, side) in best.iter_mut().zip(&mut sides) {
            *best = best.min(side()).min(side());
        }
        if best.iter().any(|time| *time >= LONG) {
            rounds = FEW_ROUNDS;
        }
        done += 1;
    }
    best
}

// ---- what is said

pub const CALLS: &str = "calls";

/// The tables, and the word that a case's name must contain.
pub struct Cases {
    word: String,
}

/// What stands beside both sides: what it is, and its time.
pub type Beside<'a> = (&'a str, f64);

impl Cases {
    pub fn new(word: &str) -> Self {
        Cases { word: word.into() }
    }

    /// Whether a case is asked for, by a word of its name or of its table's.
    pub fn wants(&self, table: &str, case: &str) -> bool {
        format!("{table}: {case}").contains(&self.word)
    }

    /// A line of a table: its columns with tabs between.
    pub fn say(&self, table: &str, case: &str, columns: &[String]) {
        println!("{table}\t{case}\t{}", columns.join("\t"));
    }

    /// A line of the table of calls.
    pub fn say_call(&self, case: &str, bytes: Option<usize>, [rust, port]: [Option<f64>; 2], beside: &[Beside]) {
        let mut columns = vec![bytes.map_or("-".into(), |bytes| bytes.to_string()), time(rust), time(port)];
        for (what, nanoseconds) in beside {
            columns.extend([time(Some(*nanoseconds)), what.to_string()]);
        }
        self.say(CALLS, case, &columns);
    }

    /// A case of the table of calls, if it is asked for.
    pub fn race<R: Answered, P: Answered>(
        &self,
        case: &str,
        bytes: Option<usize>,
        calls: u64,
        rust: impl FnMut(u64) -> R,
        port: impl FnMut(u64) -> P,
    ) {
        if self.wants(CALLS, case) {
            let [rust, port] = race(case, calls, rust, port);
            self.say_call(case, bytes, [Some(rust), Some(port)], &[]);
        }
    }

    /// The same with bytes that are moved, and for whole pages the time of that alone.
    #[allow(clippy::too_many_arguments)]
    pub fn race_beside<R: Answered, P: Answered>(
        &self,
        case: &str,
        bytes: usize,
        calls: u64,
        mut rust: impl FnMut(u64) -> R,
        mut port: impl FnMut(u64) -> P,
        what: &str,
        mut plain: impl FnMut(),
    ) {
        if !self.wants(CALLS, case) {
            return;
        }
        let (mut here, mut there) = (Told::default(), Told::default());
        let [rust, port, beside] = best_of([
            &mut || round(&mut here, calls, &mut rust),
            &mut || round(&mut there, calls, &mut port),
            &mut || plain_round(calls, |_| plain()),
        ]);
        alike(case, &here, &there);
        let beside = [(what, beside)];
        self.say_call(case, Some(bytes), [Some(rust), Some(port)], if bytes >= PAGE { &beside } else { &[] });
    }
}

/// Two sides of equal calls.
pub fn race<R: Answered, P: Answered>(
    case: &str,
    calls: u64,
    mut rust: impl FnMut(u64) -> R,
    mut port: impl FnMut(u64) -> P,
) -> [f64; 2] {
    let (mut here, mut there) = (Told::default(), Told::default());
    let best = best_of([&mut || round(&mut here, calls, &mut rust), &mut || round(&mut there, calls, &mut port)]);
    alike(case, &here, &there);
    best
}

fn time(nanoseconds: Option<f64>) -> String {
    nanoseconds.map_or("-".into(), |nanoseconds| format!("{nanoseconds:.2}"))
}
