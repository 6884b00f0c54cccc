//! Sources and tracking: a machine's, W^X over sparse.

use crate::archive;
use crate::rounds::{CALLS, Cases, Told, alike, best_of, calls_of, plain_round, race, round};
use crate::sides::{Both, EXECUTABLE, HeldSources, ITEM, PAGE, PAGES, block, new_machine};
use ckb_vm::elf::{LoadingAction, ProgramMetadata};
use std::hint::black_box;
use std::ptr;

const PLACE: usize = 8 * PAGE;
const MARKED: usize = 512 * PAGE;
/// The pages that a context store stores, and how far past a page it starts.
const STORED: [usize; 5] = [1, 4, 16, 64, 256];
const PAST: usize = 100;
/// Loading actions, and the pages of each.
const ACTIONS: [(usize, usize); 5] = [(1, 1), (1, 16), (1, 256), (16, 1), (16, 16)];
/// The pages of a call that tracks or untracks, and the items among which one is looked for.
const TRACKED: [usize; 3] = [1, 16, 256];
const ITEMS: [usize; 3] = [1, 16, 256];

/// A context store of so many bytes of ITEM: the Rust, the port, and memmove alone.
pub fn store_bytes(case: &str, both: &mut Both, sources: HeldSources, address: usize, length: usize) -> [f64; 3] {
    let Both { core, context, port, .. } = both;
    let (at, size, place) = (black_box(address as u64), black_box(length as u64), black_box(0));
    let (from, to) = (sources.item().as_ptr(), black_box(block(PAGE + length)[address % PAGE..].as_mut_ptr()));
    let (calls, mut here, mut there) = (calls_of(length), Told::default(), Told::default());
    let times = best_of([
        &mut || round(&mut here, calls, |_| upstream::context_store_bytes(context, core, at, ITEM, 0, size, place)),
        &mut || round(&mut there, calls, |_| port.context_store_bytes(sources.sources, at, 0, size, place)),
        // bytes that are neither side's, as far past a page's start
        &mut || plain_round(calls, |_| unsafe { ptr::copy(from, to, size as usize) }),
    ]);
    alike(case, &here, &there);
    times
}

/// Marks a program of so many actions of so many pages each, side by side from the address on.
pub fn mark_program(case: &str, both: &mut Both, address: usize, count: usize, pages: usize) -> [f64; 2] {
    let Both { core, context, port, .. } = both;
    let size = (pages * PAGE) as u64;
    let action = |i: usize| LoadingAction {
        addr: address as u64 + i as u64 * size,
        size,
        flags: EXECUTABLE,
        source: i as u64 * size..(i + 1) as u64 * size,
        offset_from_addr: 0,
    };
    let metadata = ProgramMetadata { actions: (0..count).map(action).collect(), entry: 0 };
    let six = |a: &LoadingAction| [a.addr, a.size, a.flags.into(), a.source.start, a.source.end, a.offset_from_addr];
    let actions: Vec<u64> = metadata.actions.iter().flat_map(six).collect();
    let (metadata, actions) = (black_box(&metadata), black_box(&actions[..]));
    race(
        case,
        calls_of(count * pages * PAGE / 8),
        |_| upstream::mark_program(context, core, metadata, ITEM, 0),
        |_| port.track(|tracked, memory| archive::mark_program(tracked, actions, memory, ITEM, 0)),
    )
}

/// All pages, so many with a call. Before a round, which is not timed, each page is made untracked or tracked.
fn tracking(cases: &Cases, both: &mut Both, tracks: bool) {
    let Both { core, context, port, pages: all } = both;
    let whole = (*all * PAGE) as u64;
    let case = if tracks { "context track_pages" } else { "context untrack_pages" };
    for pages in TRACKED.into_iter().filter(|_| cases.wants(CALLS, case)) {
        let (calls, size) = ((*all / pages) as u64, black_box((pages * PAGE) as u64));
        let (mut here, mut there) = (Told::default(), Told::default());
        let [rust, ours] = best_of([
            &mut || {
                let mut turn = |track, at, size| match track {
                    true => upstream::track_pages(context, core, at, size, ITEM, at),
                    false => upstream::untrack_pages(context, core, at, size),
                };
                assert!(turn(!tracks, 0, whole).is_ok(), "{case}: no page is ready");
                round(&mut here, calls, |i| turn(tracks, i * size, size))
            },
            &mut || {
                let mut turn = |track, at, size| {
                    port.track(|tracked, memory| match track {
                        true => archive::track_pages(tracked, memory, at, size, ITEM, at),
                        false => archive::untrack_pages(tracked, memory, at, size),
                    })
                };
                assert!(turn(!tracks, 0, whole) == 0, "{case}: no page is ready");
                round(&mut there, calls, |i| turn(tracks, i * size, size))
            },
        ]);
        alike(case, &here, &there);
        cases.say_call(case, Some(pages * PAGE), [Some(rust), Some(ours)], &[]);
    }
}

pub fn time(cases: &Cases) {
    let sources = HeldSources::one(PAGES * PAGE);
    let mut both = Both::new(PAGES, sources);
    both.fill();
    for past in [0, PAST] {
        let case = if past == 0 { "context store_bytes" } else { "context store_bytes at 100" };
        for pages in STORED.into_iter().filter(|_| cases.wants(CALLS, case)) {
            let [rust, port, plain] = store_bytes(case, &mut both, sources, PLACE + past, pages * PAGE);
            cases.say_call(case, Some(pages * PAGE), [Some(rust), Some(port)], &[("memmove", plain)]);
            both.same();
        }
    }
    for (count, pages) in ACTIONS {
        let several = if count == 1 { String::new() } else { format!(" {count} actions") };
        let case = format!("context mark_program{several}");
        if cases.wants(CALLS, &case) {
            let times = mark_program(&case, &mut both, MARKED, count, pages).map(Some);
            cases.say_call(&case, Some(count * pages * PAGE), times, &[]);
            both.same();
        }
    }
    for tracks in [true, false] {
        tracking(cases, &mut both, tracks);
        both.same();
    }

    let case = "context page_record";
    if cases.wants(CALLS, case) {
        // the Rust has no such call
        let (mut told, port) = (Told::default(), &mut both.port);
        let [time] = best_of([&mut || {
            round(&mut told, PAGES as u64, |page| {
                port.track(|tracked, memory| archive::page_record(tracked, memory, page)).number
            })
        }]);
        alike(case, &Told::default(), &told);
        cases.say_call(case, None, [None, Some(time)], &[]);
    }
    for count in ITEMS {
        let several = if count == 1 { String::new() } else { format!(" of {count} items") };
        let (sources, offset, size) = (HeldSources::new(count, PAGE), black_box(96), black_box(1_000));
        let ((_, context), id) = (new_machine(1, sources), black_box(ITEM));
        cases.race(
            &format!("context find_data{several}"),
            Some(size as usize),
            calls_of(8 * count),
            |_| upstream::load_data(&context, id, offset, size),
            |_| archive::find_data(sources.sources, id, offset, size),
        );
    }
}
