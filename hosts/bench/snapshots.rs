//! Snapshots and resumes.

use crate::archive::{self, Files, SPARSE, WXORX};
use crate::rounds::{CALLS, Cases, Told, alike, best_of, calls_of, plain_round, round};
use crate::sides::{Both, HeldSources, ITEM, PAGE, PAGES, Port, new_machine, outputs, snapshots};
use ckb_vm::machine::CoreMachine;
use ckb_vm::memory::Memory;
use ckb_vm::snapshot2::Snapshot2;
use std::hint::black_box;
use std::ptr;

/// Dirty pages of a machine that is handed over, and how far each is from the next.
const DIRTY: [(usize, usize); 7] = [(0, 1), (1, 1), (16, 1), (256, 1), (PAGES, 1), (16, 64), (256, 4)];

/// A machine that is handed over: its pages, how many are dirty, how far each is from the next, and whether all other
/// pages are tracked.
#[derive(Clone, Copy)]
pub struct Case {
    pub pages: usize,
    pub count: usize,
    pub apart: usize,
    pub tracked: bool,
}

impl Case {
    fn bytes(self) -> usize {
        self.count * PAGE
    }

    /// The address of a dirty page.
    fn address(self, i: usize) -> usize {
        i * self.apart * PAGE
    }

    /// The pages that a resume has to take from the item.
    fn others(self) -> impl Iterator<Item = usize> {
        let dirty = move |page: &usize| page.is_multiple_of(self.apart) && page / self.apart < self.count;
        (0..if self.tracked { self.pages } else { 0 }).filter(move |page| !dirty(page))
    }

    /// The bytes that a resume has to move.
    fn moved(self) -> usize {
        PAGE * (self.count + self.others().count())
    }

    fn name(self, call: &str) -> String {
        let apart = if self.apart > 1 { " apart" } else { "" };
        let tracked = if self.tracked { " rest tracked" } else { "" };
        format!("context {call}{apart}{tracked}")
    }
}

/// Both machines hold the item's bytes, all clean; then the case's pages are dirty, with a word of their own.
fn prepare(both: &mut Both, sources: HeldSources, case: Case) {
    let Both { core, context, port, .. } = both;
    **context = new_machine(0, sources).1;
    let item = &sources.item()[..case.pages * PAGE];
    let size = item.len() as u64;
    let mut refused = port.store(|lent, memory| SPARSE.store_bytes(lent, item, memory, 0)).number;
    refused |= port.track(|tracked, memory| archive::untrack_pages(tracked, memory, 0, size));
    let mut failed = core.memory_mut().inner_mut().store_bytes(0, item).is_err();
    for page in 0..case.pages as u64 {
        refused |= port.ask(|lent, memory| SPARSE.clear_flag(lent, memory, page, u8::MAX));
        failed |= core.memory_mut().clear_flag(page, u8::MAX).is_err();
    }
    if case.tracked {
        refused |= port.track(|tracked, memory| archive::track_pages(tracked, memory, 0, size, ITEM, 0));
        failed |= context.track_pages(*core, 0, size, &ITEM, 0).is_err();
    }
    for i in 0..case.count {
        let (address, word) = (case.address(i) as u64, i as u64);
        refused |= port.track(|tracked, memory| archive::untrack_pages(tracked, memory, address, 1));
        refused |= port.store(|lent, memory| WXORX.store64(lent, memory, address, word)).number;
        failed |= context.untrack_pages(*core, address, 1).is_err();
        failed |= core.memory_mut().store64(&address, &word).is_err();
    }
    assert!(!failed && refused == 0, "a machine was not made ready");
}

/// The Rust, the port, and copies of the dirty pages alone: page by page, and in one piece.
fn make_snapshot(case: Case, both: &mut Both, file: &mut [u8], pages: &mut [u8]) -> [f64; 4] {
    let Both { core, context, port, .. } = both;
    let (count, bytes) = (black_box(case.count), black_box(case.bytes()));
    let (from, to) = (black_box(port.area.as_ptr()), black_box(pages.as_mut_ptr()));
    // a few of the small ones in a round, which would else be the clock's
    let calls = (calls_of(bytes) / 50).max(1);
    let (mut here, mut there) = (Told::default(), Told::default());
    let times = best_of([
        &mut || round(&mut here, calls, |_| upstream::make_snapshot(context, core)),
        &mut || round(&mut there, calls, |_| port.make_snapshot(file, pages)),
        // bytes of the area, and an output that is apart from it
        &mut || {
            plain_round(calls, |_| {
                for i in 0..count {
                    unsafe { ptr::copy_nonoverlapping(from.add(case.address(i)), to.add(i * PAGE), PAGE) }
                }
            })
        },
        &mut || plain_round(calls, |_| unsafe { ptr::copy_nonoverlapping(from, to, bytes) }),
    ]);
    alike("make_snapshot", &here, &there);
    times
}

/// The same of a resume, each time on a fresh machine, which is made before and not timed.
fn resume(case: Case, sources: HeldSources, snapshot: &Snapshot2<u64>, files: Files, other: &mut Port) -> [f64; 4] {
    let (count, bytes) = (black_box(case.count), black_box(case.moved()));
    let (from, to) = (black_box(sources.item().as_ptr()), black_box(other.area.as_mut_ptr()));
    // what the clock takes for itself; a resume of no page leaves the pages fresh for the next
    let [idle] = best_of([&mut || plain_round(1, |_| ())]);
    let calls = if bytes == 0 { 100 } else { 1 };
    let idle = idle / calls as f64;
    let (mut here, mut there) = (Told::default(), Told::default());
    let times = best_of([
        &mut || {
            let (mut core, mut context) = new_machine(case.pages, sources);
            round(&mut here, calls, |_| upstream::resume(&mut context, &mut core, snapshot))
        },
        &mut || {
            assert!(other.fresh() == 0, "no fresh machine");
            round(&mut there, calls, |_| other.resume(sources.sources, files))
        },
        // pages of the page file and of the item, and an area that is apart from both
        &mut || {
            plain_round(calls, |_| {
                for i in 0..count {
                    let page = &files.pages[i * PAGE..][..PAGE];
                    unsafe { ptr::copy_nonoverlapping(page.as_ptr(), to.add(case.address(i)), PAGE) }
                }
                for at in case.others().map(|page| page * PAGE) {
                    unsafe { ptr::copy_nonoverlapping(from.add(at), to.add(at), PAGE) }
                }
            })
        },
        &mut || plain_round(calls, |_| unsafe { ptr::copy_nonoverlapping(from, to, bytes) }),
    ]);
    alike("resume", &here, &there);
    times.map(|time| time - idle)
}

/// Machines that are handed over, and where they go.
pub struct Handover {
    pub both: Both,
    pub other: &'static mut Port,
    pub sources: HeldSources,
    outputs: [(&'static mut [u8], &'static mut [u8]); 2],
}

impl Handover {
    pub fn new(pages: usize) -> Self {
        let sources = HeldSources::one(pages * PAGE);
        let outputs = [outputs(pages), outputs(pages)];
        Handover { both: Both::new(pages, sources), other: Port::new(pages), sources, outputs }
    }

    /// The times of a snapshot and of a resume. The machines that are resumed hold the same.
    pub fn time(&mut self, case: Case) -> [[f64; 4]; 2] {
        let Handover { both, other, sources, outputs: [(file, pages), (file_again, pages_again)] } = self;
        prepare(both, *sources, case);
        let made = make_snapshot(case, both, file, pages);
        let (snapshot, files) = snapshots(both.context, both.core, both.port, file, pages);
        let resumed = resume(case, *sources, &snapshot, files, other);
        let (mut core, mut context) = new_machine(case.pages, *sources);
        let answer = upstream::resume(&mut context, &mut core, &snapshot);
        let number = other.fresh() | other.resume(sources.sources, files);
        assert!(number == 0 && answer.is_ok(), "a resume was refused");
        let (_, again) = snapshots(&context, &mut core, other, file_again, pages_again);
        assert!(again.records == files.records && again.pages == files.pages, "the resumed snapshot differs");
        let size = case.pages * PAGE;
        let mut held = vec![0; size];
        let number = other.ask(|lent, memory| SPARSE.load_bytes(lent, &mut held, memory, 0, size as u64));
        let loaded = core.memory_mut().load_bytes(0, size as u64);
        assert!(number == 0 && loaded.is_ok_and(|loaded| loaded[..] == held), "the resumed bytes differ");
        [made, resumed]
    }
}

pub fn time(cases: &Cases) {
    let mut handover = Handover::new(PAGES);
    for tracked in [false, true] {
        for (count, apart) in DIRTY.into_iter().filter(|(count, _)| !tracked || *count < PAGES) {
            let case = Case { pages: PAGES, count, apart, tracked };
            let names = ["make_snapshot", "resume"].map(|call| case.name(call));
            if !names.iter().any(|name| cases.wants(CALLS, name)) {
                continue;
            }
            let times = handover.time(case);
            let moved = [case.bytes(), case.moved()];
            let said = names.iter().zip(times).zip(moved).filter(|((name, _), _)| cases.wants(CALLS, name));
            for ((name, [rust, port, pages, whole]), moved) in said {
                let copies = [("pages", pages), ("whole", whole)];
                cases.say_call(
                    name,
                    Some(case.bytes()),
                    [Some(rust), Some(port)],
                    if moved > 0 { &copies } else { &[] },
                );
            }
        }
    }
}
