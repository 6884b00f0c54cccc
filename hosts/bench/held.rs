//! Bytes held: what the port is lent for a session, and what the Rust takes from the allocator for the same
//! (docs/SPEED.md).
//!
//! The allocator counts while the Rust's calls run, and it must have nothing to count while the port's do. Each lent
//! slice lies between guards that must stay as they are. The port runs a session with a slot for every page and
//! outputs for every page; then with the fewest slots and the shortest outputs; then with a slot fewer, and with a byte
//! of an output fewer, which must be refused 7 and 8. What goes in (sources, files, the Rust's snapshot) is counted on
//! neither side.
//!
//! It prints a line for each session, its columns with tabs between: table, session, bytes lent, the fewest, the Rust's
//! bytes held at most, all its bytes asked for, and how often it asked.

#[allow(dead_code)]
#[path = "../rust/src/archive.rs"]
mod archive;
#[allow(dead_code)]
#[path = "../../oracle/recordfile.rs"]
mod recordfile;
#[allow(dead_code)]
mod sides;

use archive::{Files, WXORX};
use ckb_vm::machine::CoreMachine;
use ckb_vm::snapshot2::Snapshot2;
use recordfile::{RECORD, decode, encode};
use sides::{BEFORE_RUNS, Both, HeldSources, ITEM, PAGE, PAGES, Port, RECORD_WORDS, held, new_machine};
use std::alloc::{GlobalAlloc, Layout, System};
use std::sync::atomic::{AtomicBool, AtomicUsize, Ordering::Relaxed};
use upstream::{Calls, Context, Core};

const TABLE: &str = "held";
const NO_SLOT: u32 = 7;
const OUTPUT_SHORT: u32 = 8;

// ---- the allocator

static COUNTS: AtomicBool = AtomicBool::new(false);
static HELD: AtomicUsize = AtomicUsize::new(0);
static MOST: AtomicUsize = AtomicUsize::new(0);
static IN_ALL: AtomicUsize = AtomicUsize::new(0);
static REQUESTS: AtomicUsize = AtomicUsize::new(0);

struct Counting;

#[global_allocator]
static ALLOCATOR: Counting = Counting;

fn asked(bytes: usize, given_back: usize) {
    if COUNTS.load(Relaxed) {
        let now = HELD.load(Relaxed) + bytes - given_back;
        HELD.store(now, Relaxed);
        MOST.fetch_max(now, Relaxed);
        IN_ALL.fetch_add(bytes, Relaxed);
        REQUESTS.fetch_add(1, Relaxed);
    }
}

// the system's allocator does the work
unsafe impl GlobalAlloc for Counting {
    unsafe fn alloc(&self, layout: Layout) -> *mut u8 {
        asked(layout.size(), 0);
        unsafe { System.alloc(layout) }
    }

    unsafe fn alloc_zeroed(&self, layout: Layout) -> *mut u8 {
        asked(layout.size(), 0);
        unsafe { System.alloc_zeroed(layout) }
    }

    /// The new block stands in the old one's place, as if none ever moved.
    unsafe fn realloc(&self, block: *mut u8, layout: Layout, size: usize) -> *mut u8 {
        asked(size, layout.size());
        unsafe { System.realloc(block, layout, size) }
    }

    unsafe fn dealloc(&self, block: *mut u8, layout: Layout) {
        if COUNTS.load(Relaxed) {
            HELD.fetch_sub(layout.size(), Relaxed);
        }
        unsafe { System.dealloc(block, layout) }
    }
}

/// What was taken from the allocator since it was last forgotten.
#[derive(Clone, Copy, PartialEq)]
struct Taken {
    most: usize,
    in_all: usize,
    requests: usize,
}

fn forget() {
    for count in [&HELD, &MOST, &IN_ALL, &REQUESTS] {
        count.store(0, Relaxed);
    }
}

fn counted<T>(calls: impl FnOnce() -> T) -> T {
    COUNTS.store(true, Relaxed);
    let answer = calls();
    COUNTS.store(false, Relaxed);
    answer
}

fn taken() -> Taken {
    Taken { most: MOST.load(Relaxed), in_all: IN_ALL.load(Relaxed), requests: REQUESTS.load(Relaxed) }
}

// ---- sessions

/// What a machine does before it is stopped.
#[derive(Clone, Copy)]
enum Work {
    /// Document 01's Session A: its context store.
    ContextStore,
    /// A word is stored to so many pages, so far from each other; then a word of each page may be loaded.
    Store { count: usize, apart: usize, loads: bool },
}

const SESSION_A: [u64; 4] = [100, 0, 10_000, 16_376];

impl Work {
    fn rust(self, core: &mut Core, context: &mut Context, pages: usize) -> bool {
        match self {
            Work::ContextStore => {
                let [address, offset, length, place] = SESSION_A;
                upstream::context_store_bytes(context, core, address, ITEM, offset, length, place).is_ok()
            }
            Work::Store { count, apart, loads } => {
                let mut store =
                    |i: usize| Calls::store64(core.memory_mut(), (i * apart * PAGE) as u64, i as u64).is_ok();
                let stored = (0..count).all(&mut store);
                let mut load = |page: usize| Calls::load64(core.memory_mut(), (page * PAGE) as u64).is_ok();
                stored && (!loads || (0..pages).all(&mut load))
            }
        }
    }

    /// The number of the first call that is refused, or 0.
    fn port(self, port: &mut Port, sources: HeldSources, pages: usize) -> u32 {
        match self {
            Work::ContextStore => {
                let [address, offset, length, place] = SESSION_A;
                port.context_store_bytes(sources.sources, address, offset, length, place).number
            }
            Work::Store { count, apart, loads } => {
                let mut store = |i: usize| {
                    port.store(|lent, memory| WXORX.store64(lent, memory, (i * apart * PAGE) as u64, i as u64)).number
                };
                let stored = (0..count).map(&mut store).find(|number| *number != 0).unwrap_or(0);
                let mut load =
                    |page: usize| port.ask(|lent, memory| WXORX.load64(lent, memory, (page * PAGE) as u64)).number;
                let loaded = (0..if loads { pages } else { 0 }).map(&mut load).find(|number| *number != 0);
                stored | loaded.unwrap_or(0)
            }
        }
    }
}

/// A machine's pages, what it does, and whether it is then stopped and goes on elsewhere.
struct Session {
    name: &'static str,
    pages: usize,
    work: Work,
    handed_over: bool,
}

// ---- what is lent

/// The slots, and the bytes of the outputs for record file and page file.
#[derive(Clone, Copy)]
struct Lending {
    slots: usize,
    records: usize,
    images: usize,
}

impl Lending {
    /// All bytes that a machine of so many pages is lent.
    fn bytes(self, pages: usize) -> usize {
        let Lending { slots, records, images } = self;
        pages * (size_of::<u16>() + size_of::<u8>() + RECORD_WORDS * size_of::<u64>()) + slots * PAGE + records + images
    }
}

const GUARD: usize = 64;

/// Slices between guards.
#[derive(Default)]
struct Guards(Vec<Box<dyn Fn() -> bool>>);

impl Guards {
    fn lend<T: Copy + PartialEq + 'static>(&mut self, length: usize, value: T) -> &'static mut [T] {
        let (before, rest) = vec![value; GUARD + length + GUARD].leak().split_at_mut(GUARD);
        let (lent, after) = rest.split_at_mut(length);
        self.0.push(Box::new(move || before.iter().chain(&*after).all(|there| *there == value)));
        lent
    }
}

/// A machine of the port and its outputs, lent so much and no more.
struct Lent {
    port: &'static mut Port,
    file: &'static mut [u8],
    images: &'static mut [u8],
    guards: Guards,
}

impl Lent {
    fn new(pages: usize, Lending { slots, records, images }: Lending) -> Self {
        let mut guards = Guards::default();
        let (slots, area) = (guards.lend(pages, 0xa5a5), guards.lend(slots * PAGE, 0xa5));
        let (flags, words) = (guards.lend(pages, 0xa5), guards.lend(RECORD_WORDS * pages, 0xa5));
        let (file, images) = (guards.lend(records, 0xa5), guards.lend(images, 0xa5));
        let port = Port::lent_from(slots, flags, area, words);
        Lent { port, file, images, guards }
    }

    fn slots_in_use(&self) -> usize {
        self.port.machine.memory.used as usize
    }

    fn stop(&mut self) -> archive::Made {
        self.port.make_snapshot(self.file, self.images)
    }

    fn whole(&self) -> bool {
        self.guards.0.iter().all(|guard| guard())
    }
}

/// The port's part of a session, on two hosts that are each lent so much.
struct Ported {
    first: Lent,
    second: Option<Lent>,
    made: Option<archive::Made>,
}

impl Session {
    /// The number of the first call that is refused, or 0, and what is there then. Nothing is taken from the allocator.
    fn port(&self, sources: HeldSources, first: Lending, second: Lending) -> (u32, Ported) {
        let (pages, before) = (self.pages, taken());
        let mut there = Ported { first: Lent::new(pages, first), second: None, made: None };
        let mut number = counted(|| there.first.port.fresh() | self.work.port(there.first.port, sources, pages));
        if self.handed_over && number == 0 {
            let made = counted(|| there.first.stop());
            number = made.number;
            if number == 0 {
                let Lent { file, images, .. } = &there.first;
                let (records, pages_made) = (made.records as usize * RECORD, made.pages as usize * PAGE);
                let files = Files { records: &file[..records], pages: &images[..pages_made] };
                let other = Lent::new(pages, second);
                number = counted(|| other.port.fresh() | other.port.resume(sources.sources, files));
                there.second = Some(other);
            }
            there.made = Some(made);
        }
        assert!(taken() == before, "{}: the port took something from the allocator", self.name);
        let whole = there.first.whole() && there.second.as_ref().is_none_or(Lent::whole);
        assert!(whole, "{}: something was written past what is lent", self.name);
        (number, there)
    }

    fn say(&self, stage: &str, lent: Lending, fewest: Lending, rust: Taken) {
        let (lent, fewest) = (lent.bytes(self.pages), fewest.bytes(self.pages));
        let Taken { most, in_all, requests } = rust;
        println!("{TABLE}\t{}{stage}\t{lent}\t{fewest}\t{most}\t{in_all}\t{requests}", self.name);
    }

    fn run(&self) {
        let (pages, name, sources) = (self.pages, self.name, HeldSources::one(SESSION_A[2] as usize));
        // the Rust
        forget();
        let (mut core, mut context) = counted(|| new_machine(pages, sources));
        assert!(counted(|| self.work.rust(&mut core, &mut context, pages)), "{name}: the Rust refused a call");
        let worked = taken();
        let mut handed: Option<(Snapshot2<u64>, Taken)> = None;
        let mut resumed: Option<((Core, Context), Taken)> = None;
        if self.handed_over {
            let snapshot = counted(|| upstream::make_snapshot(&context, &mut core)).expect("a snapshot");
            let stopped = taken();
            forget();
            let (mut core, mut context) = counted(|| new_machine(pages, sources));
            let answer = counted(|| upstream::resume(&mut context, &mut core, &snapshot));
            assert!(answer.is_ok(), "{name}: the Rust refused to resume");
            resumed = Some(((core, context), taken()));
            handed = Some((snapshot, stopped));
        }

        // the port: a slot for every page, and outputs for every page
        let storage = Lending { slots: pages, records: 0, images: 0 };
        let outputs = Lending { records: (BEFORE_RUNS + pages) * RECORD, images: pages * PAGE, ..storage };
        let (number, there) = self.port(sources, outputs, storage);
        assert!(number == 0, "{name}: the port refused a call");
        let fewest = Lending { slots: there.first.slots_in_use(), ..storage };
        let exact = there.made.as_ref().map_or(fewest, |made| Lending {
            records: made.records as usize * RECORD,
            images: made.pages as usize * PAGE,
            ..fewest
        });
        let second = Lending { slots: there.second.as_ref().map_or(0, Lent::slots_in_use), ..storage };
        // the fewest slots and the shortest outputs; then one fewer, and one byte shorter
        let (number, with_fewest) = self.port(sources, exact, second);
        assert!(number == 0, "{name}: the port refused a call with the fewest slots");
        let number = self.port(sources, Lending { slots: fewest.slots - 1, ..exact }, second).0;
        assert!(number == NO_SLOT, "{name}: fewer slots were enough");
        if self.handed_over {
            let fewer = Lending { slots: second.slots - 1, ..second };
            assert!(self.port(sources, exact, fewer).0 == NO_SLOT, "{name}: fewer slots were enough to resume");
            let short =
                [Lending { records: exact.records - 1, ..exact }, Lending { images: exact.images - 1, ..exact }];
            for short in short {
                assert!(self.port(sources, short, second).0 == OUTPUT_SHORT, "{name}: a shorter output was enough");
            }
        }

        // both sides hold the same
        if let Some((snapshot, _)) = &handed {
            let (records, images) = encode(snapshot);
            assert!(decode(&records, &images).is_some(), "{name}: the files are not in the form");
            let Lent { file, images: written, .. } = &with_fewest.first;
            assert!(records == **file && images == **written, "{name}: the snapshots differ");
        }
        let (core, context) = (held(core), held(context));
        let mut both = Both { pages, core, context, port: there.first.port };
        both.same();
        both.port = with_fewest.first.port;
        both.same();
        self.say("", storage, fewest, worked);
        if let (Some((_, stopped)), Some(((core, context), taken))) = (handed, resumed) {
            let mut both = Both { core: held(core), context: held(context), ..both };
            for second in [there.second, with_fewest.second].into_iter().flatten() {
                both.port = second.port;
                both.same();
            }
            self.say(", stopped", outputs, exact, stopped);
            self.say(", resumed", storage, second, taken);
        }
    }
}

fn main() {
    let store = |count, apart, loads| Work::Store { count, apart, loads };
    let session = |name, pages, work, handed_over| Session { name, pages, work, handed_over };
    let sessions = [
        session("Session A", 4, Work::ContextStore, true),
        session("64 of 1,024 pages stored to", PAGES, store(64, 16, false), true),
        session("64 stored to, all 1,024 loaded", PAGES, store(64, 16, true), false),
        session("65 of 1,024 pages stored to", PAGES, store(65, 15, false), true),
        session("all 1,024 pages stored to", PAGES, store(PAGES, 1, false), true),
    ];
    for session in sessions {
        session.run();
    }
}
