//! How the time of a call grows with the machine's pages.

use crate::archive::WXORX;
use crate::contexts::{mark_program, store_bytes};
use crate::machines::fresh;
use crate::rounds::{Cases, calls_of, race};
use crate::sides::{Both, PAGE, PAGES};
use crate::snapshots::{Case, Handover};
use ckb_vm::machine::CoreMachine;
use std::hint::black_box;
use upstream::Calls;

const TABLE: &str = "growth";
const SIZES: [usize; 5] = [4, 16, 64, 256, PAGES];
const WORDS: u64 = (PAGE / 8) as u64;

fn store64(case: &str, both: &mut Both) -> [f64; 2] {
    let Both { core, port, .. } = both;
    let (memory, at) = (core.memory_mut(), black_box(PAGE as u64));
    race(
        case,
        calls_of(8),
        |i| Calls::store64(memory, at + i % WORDS * 8, i),
        |i| port.store(|lent, memory| WXORX.store64(lent, memory, at + i % WORDS * 8, i)),
    )
}

fn load64(case: &str, both: &mut Both) -> [f64; 2] {
    let Both { core, port, .. } = both;
    let (memory, at) = (core.memory_mut(), black_box(PAGE as u64));
    race(
        case,
        calls_of(8),
        |i| Calls::load64(memory, at + i % WORDS * 8),
        |i| port.ask(|lent, memory| WXORX.load64(lent, memory, at + i % WORDS * 8)),
    )
}

pub fn time(cases: &Cases) {
    let say = |name: &str, pages: usize, [rust, port]: [f64; 2]| {
        cases.say(TABLE, name, &[pages.to_string(), format!("{rust:.2}"), format!("{port:.2}")]);
    };
    let mut machines = SIZES.map(Handover::new);
    // cases that leave a machine as it was, but for bytes and what is tracked
    type Times = fn(&str, &mut Handover) -> [f64; 2];
    let calls: [(&str, Times); 5] = [
        ("wxorx store64", |case, machine| store64(case, &mut machine.both)),
        ("wxorx load64", |case, machine| load64(case, &mut machine.both)),
        ("machine fresh", |case, machine| fresh(case, machine.other)),
        ("context store_bytes of all pages", |case, machine| {
            let size = machine.both.pages * PAGE;
            let [rust, port, _] = store_bytes(case, &mut machine.both, machine.sources, 0, size);
            [rust, port]
        }),
        ("context mark_program of all pages", |case, machine| {
            let pages = machine.both.pages;
            mark_program(case, &mut machine.both, 0, 1, pages)
        }),
    ];
    for machine in &mut machines {
        machine.both.fill();
    }
    for (name, times) in calls.into_iter().filter(|(name, _)| cases.wants(TABLE, name)) {
        for machine in &mut machines {
            let times = times(name, machine);
            machine.both.same();
            say(name, machine.both.pages, times);
        }
    }
    for (which, dirty, tracked) in
        [("none dirty", false, false), ("all dirty", true, false), ("rest tracked", false, true)]
    {
        let names = ["make_snapshot", "resume"].map(|call| format!("context {call}, {which}"));
        if !names.iter().any(|name| cases.wants(TABLE, name)) {
            continue;
        }
        let times = machines.each_mut().map(|machine| {
            let pages = machine.both.pages;
            let count = if dirty { pages } else { 0 };
            (pages, machine.time(Case { pages, count, apart: 1, tracked }))
        });
        for (i, name) in names.iter().enumerate().filter(|(_, name)| cases.wants(TABLE, name)) {
            for (pages, times) in &times {
                let [rust, port, ..] = times[i];
                say(name, *pages, [rust, port]);
            }
        }
    }
}
