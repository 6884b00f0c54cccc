//! Both sides of a case: the upstream Rust, and the port with its storage, held as a host holds it.

use crate::archive::{self, Calls, Files, Lent, Machine, Made, Recorded, SPARSE, Sources, Stored, Tracked, WXORX};
use crate::recordfile::{RECORD, encode};
use ckb_vm::machine::CoreMachine;
use ckb_vm::memory::Memory;
use ckb_vm::snapshot2::Snapshot2;
use std::hint::black_box;
use upstream::{Context, Core, Items};

pub const PAGE: usize = 4096;
/// The most pages of a memory.
pub const PAGES: usize = 1024;
pub const EXECUTABLE: u8 = 2;
pub const DIRTY: u8 = 4;
pub const VERSION: u32 = 1;
pub const MAX_CYCLES: u64 = 1_000;
/// The words of a page's record.
pub const RECORD_WORDS: usize = 3;
/// The records of a record file that stand before its runs.
pub const BEFORE_RUNS: usize = 9;
/// The item that is stored and tracked.
pub const ITEM: u64 = 7;
/// Where in a page slots, sources and outputs start: where the allocator puts the upstream's pages.
const START: usize = 16;

/// `length` bytes from START of a page on. They are never freed, and no memory is: from then on the allocator would put
/// pages elsewhere.
pub fn block(length: usize) -> &'static mut [u8] {
    let all = vec![0x5a; length + 2 * PAGE].leak();
    let start = (START + PAGE - all.as_ptr() as usize % PAGE) % PAGE;
    &mut all[start..start + length]
}

/// Bytes of which no page is like its neighbours.
pub fn patterned(length: usize) -> &'static [u8] {
    let bytes = block(length);
    for (i, byte) in bytes.iter_mut().enumerate() {
        *byte = (i * 7 + i / 256) as u8;
    }
    bytes
}

/// A value that stays where it is, in memory, as a host's state is, and not in registers.
pub fn held<T>(value: T) -> &'static mut T {
    black_box(Box::leak(Box::new(value)))
}

// ---- the upstream Rust

/// A fresh machine of so many pages, and its tracking.
pub fn new_machine(pages: usize, sources: HeldSources) -> (Core, Context) {
    upstream::new_machine(VERSION, MAX_CYCLES, pages * PAGE, Items(sources.items))
}

// ---- the port

/// A machine of the port with its storage, as a host holds it.
pub struct Port {
    pub slots: &'static mut [u16],
    pub flags: &'static mut [u8],
    pub area: &'static mut [u8],
    pub records: &'static mut [u64],
    pub machine: Machine,
}

impl Port {
    /// A fresh machine with a slot for every page.
    pub fn new(pages: usize) -> &'static mut Self {
        let (slots, flags, records) =
            (vec![0; pages].leak(), vec![0; pages].leak(), vec![0; RECORD_WORDS * pages].leak());
        Self::lent_from(slots, flags, block(pages * PAGE), records)
    }

    /// A fresh machine of as many pages as there are flags.
    pub fn lent_from(
        slots: &'static mut [u16],
        flags: &'static mut [u8],
        area: &'static mut [u8],
        records: &'static mut [u64],
    ) -> &'static mut Self {
        let size = (flags.len() * PAGE) as u64;
        let lent = Lent { slots, flags, area };
        let fresh = archive::machine_fresh(Tracked { lent, records }, size, VERSION, MAX_CYCLES);
        assert!(fresh.number == 0, "no fresh machine");
        held(Port { slots, flags, area, records, machine: fresh.machine })
    }

    pub fn lent(&mut self) -> Lent<'_> {
        Lent { slots: self.slots, flags: self.flags, area: self.area }
    }

    pub fn tracked(&mut self) -> Tracked<'_> {
        let lent = Lent { slots: self.slots, flags: self.flags, area: self.area };
        Tracked { lent, records: self.records }
    }

    /// A call that takes no slot.
    pub fn ask<A>(&mut self, call: impl FnOnce(Lent, archive::Memory) -> A) -> A {
        let memory = self.machine.memory;
        call(self.lent(), memory)
    }

    /// A call that may take slots: those then in use go into the next call.
    pub fn store(&mut self, call: impl FnOnce(Lent, archive::Memory) -> Stored) -> Stored {
        let memory = self.machine.memory;
        let stored = call(self.lent(), memory);
        self.machine.memory.used = stored.used;
        stored
    }

    /// A call of tracking that takes no slot.
    pub fn track<A>(&mut self, call: impl FnOnce(Tracked, archive::Memory) -> A) -> A {
        let memory = self.machine.memory;
        call(self.tracked(), memory)
    }

    pub fn context_store_bytes(
        &mut self,
        sources: Sources,
        address: u64,
        offset: u64,
        length: u64,
        place: u64,
    ) -> archive::ContextStored {
        let memory = self.machine.memory;
        let tracked = self.tracked();
        let stored = archive::context_store_bytes(tracked, sources, memory, address, ITEM, offset, length, place);
        self.machine.memory.used = stored.used;
        stored
    }

    /// A call that hands the machine back.
    pub fn change(&mut self, call: impl FnOnce(Machine) -> Machine) {
        self.machine = call(self.machine);
    }

    pub fn fresh(&mut self) -> u32 {
        let size = self.machine.memory.size;
        let fresh = archive::machine_fresh(self.tracked(), size, VERSION, MAX_CYCLES);
        self.machine = fresh.machine;
        fresh.number
    }

    pub fn make_snapshot(&mut self, file: &mut [u8], pages: &mut [u8]) -> Made {
        let machine = self.machine;
        archive::make_snapshot(self.tracked(), file, pages, machine)
    }

    pub fn resume(&mut self, sources: Sources, files: Files) -> u32 {
        let machine = self.machine;
        let answer = archive::resume(self.tracked(), sources, files, machine);
        self.machine = answer.machine;
        answer.number
    }
}

// ---- layers

/// One of the two memories, on both sides.
pub trait Layer {
    type Upstream: upstream::Calls + 'static;
    const CALLS: &'static Calls;
    const NAME: &'static str;
}

pub struct Sparse;

impl Layer for Sparse {
    type Upstream = upstream::Sparse;
    const CALLS: &'static Calls = &SPARSE;
    const NAME: &'static str = "sparse";
}

pub struct WXorX;

impl Layer for WXorX {
    type Upstream = upstream::WXorX;
    const CALLS: &'static Calls = &WXORX;
    const NAME: &'static str = "wxorx";
}

// ---- sources and snapshots, on both sides

/// The same items on both sides, side by side in one block.
#[derive(Clone, Copy)]
pub struct HeldSources {
    pub items: &'static [(u64, &'static [u8])],
    pub sources: Sources<'static>,
}

impl HeldSources {
    /// `count` items of so many bytes, the last of them ITEM.
    pub fn new(count: usize, length: usize) -> Self {
        let bytes = black_box(patterned(count * length));
        let id = |i: usize| ITEM + (count - 1 - i) as u64;
        let items: Vec<_> = bytes.chunks(length).enumerate().map(|(i, item)| (id(i), item)).collect();
        let entry = |i: usize| [id(i), (i * length) as u64, length as u64];
        let directory: Vec<_> = (0..count).flat_map(entry).collect();
        let sources = Sources { directory: black_box(directory.leak()), bytes };
        HeldSources { items: black_box(items.leak()), sources }
    }

    /// ITEM alone.
    pub fn one(length: usize) -> Self {
        Self::new(1, length)
    }

    pub fn item(self) -> &'static [u8] {
        self.items[self.items.len() - 1].1
    }
}

/// Both machines of so many pages, with their tracking.
pub struct Both {
    pub pages: usize,
    pub core: &'static mut Core,
    pub context: &'static mut Context,
    pub port: &'static mut Port,
}

impl Both {
    pub fn new(pages: usize, sources: HeldSources) -> Self {
        let (core, context) = new_machine(pages, sources);
        Both { pages, core: held(core), context: held(context), port: Port::new(pages) }
    }

    /// Stores ones to every page, so that each is present, in the slot of its own number.
    pub fn fill(&mut self) {
        let size = (self.pages * PAGE) as u64;
        let number = self.port.store(|lent, memory| WXORX.store_byte(lent, memory, 0, size, 1)).number;
        assert!(number == 0 && self.core.memory_mut().store_byte(0, size, 1).is_ok(), "a machine was not filled");
    }

    /// Stops the program where bytes, flags or what is tracked differ.
    pub fn same(&mut self) {
        let Both { pages, core, context, port } = self;
        let snapshot = context.make_snapshot(*core).expect("a snapshot of what is tracked");
        let mut from = vec![None; *pages];
        for (address, flag, id, offset, length) in &snapshot.pages_from_source {
            for at in (0..*length).step_by(PAGE) {
                from[(address + at) as usize / PAGE] = Some((*id, offset + at, u32::from(*flag)));
            }
        }
        let mut held = vec![0; PAGE];
        for (page, from) in from.into_iter().enumerate() {
            let at = (page * PAGE) as u64;
            let loaded = core.memory_mut().load_bytes(at, PAGE as u64);
            let number = port.ask(|lent, memory| WXORX.load_bytes(lent, &mut held, memory, at, PAGE as u64));
            let same = loaded.is_ok_and(|loaded| loaded[..] == held);
            assert!(number == 0 && same, "the bytes of page {page} differ");
            let flag = core.memory_mut().fetch_flag(page as u64);
            assert!(flag.is_ok_and(|flag| flag == port.flags[page]), "the flags of page {page} differ");
            let Recorded { number, tracked, id, offset, flag } =
                port.track(|tracked, memory| archive::page_record(tracked, memory, page as u64));
            // the record of a dirty page is in no snapshot
            let record = (tracked != 0 && port.flags[page] & DIRTY == 0).then_some((id, offset, flag));
            assert!(number == 0 && record == from, "the records of page {page} differ");
        }
    }
}

/// Outputs for a snapshot of a machine of so many pages.
pub fn outputs(pages: usize) -> (&'static mut [u8], &'static mut [u8]) {
    (block((BEFORE_RUNS + pages) * RECORD), block(pages * PAGE))
}

/// Takes both snapshots, which must be the same, and leaves the port's in the outputs.
pub fn snapshots<'a>(
    context: &Context,
    core: &mut Core,
    port: &mut Port,
    file: &'a mut [u8],
    pages: &'a mut [u8],
) -> (Snapshot2<u64>, Files<'a>) {
    let snapshot = upstream::make_snapshot(context, core).expect("a snapshot");
    let made = port.make_snapshot(file, pages);
    assert!(made.number == 0, "a snapshot was refused");
    let files = Files { records: &file[..made.records as usize * RECORD], pages: &pages[..made.pages as usize * PAGE] };
    let (records, images) = encode(&snapshot);
    assert!(records == files.records && images == files.pages, "the snapshots differ");
    (snapshot, files)
}
