//! Times calls of the upstream Rust and of this port, made from Rust (docs/SPEED.md).
//!
//! `bench PART [WORD]`: the cases of a part, all or those whose name or table's name contains WORD.
//!
//! A case is a round of equal calls. Both sides make it in turn, many times over, and a side's time is its best
//! round. Each side pays for one call that is not inlined: of a function of bench/sides.rs, or of the archive. No call
//! may be refused, and in the end both sides hold the same.
//!
//! It prints a line for each case, its columns with tabs between: table, case, and the table's columns, times in
//! nanoseconds a call. tools/bench runs it and prints the tables.

#[allow(dead_code)]
#[path = "rust/src/archive.rs"]
mod archive;
#[path = "bench/contexts.rs"]
mod contexts;
#[path = "bench/crossing.rs"]
mod crossing;
#[path = "bench/growth.rs"]
mod growth;
#[path = "bench/machines.rs"]
mod machines;
#[path = "bench/memories.rs"]
mod memories;
#[allow(dead_code)]
#[path = "../oracle/recordfile.rs"]
mod recordfile;
#[path = "bench/rounds.rs"]
mod rounds;
#[path = "bench/sides.rs"]
mod sides;
#[path = "bench/snapshots.rs"]
mod snapshots;

type Part = (&'static str, fn(&rounds::Cases));

/// The parts, each for a process of its own: what one leaves in the allocator is not another's.
const PARTS: [Part; 6] = [
    ("memories", memories::time),
    ("machines", machines::time),
    ("contexts", contexts::time),
    ("snapshots", snapshots::time),
    ("crossing", crossing::time),
    ("growth", growth::time),
];

fn main() -> std::process::ExitCode {
    let words: Vec<String> = std::env::args().skip(1).collect();
    let (part, word) = match &words[..] {
        [part] => (part, ""),
        [part, word] => (part, &word[..]),
        _ => return usage(),
    };
    let Some((_, time)) = PARTS.iter().find(|(name, _)| name == part) else { return usage() };
    time(&rounds::Cases::new(word));
    std::process::ExitCode::SUCCESS
}

fn usage() -> std::process::ExitCode {
    eprintln!("usage: bench PART [WORD]; the parts: {}", PARTS.map(|(name, _)| name).join(" "));
    2.into()
}
