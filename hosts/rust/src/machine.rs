use crate::archive::{self, ContextStored, MachineAnswer, Recorded, Tracked, seen};
use crate::error::{Error, Result, answer};
use crate::memory::{SparseMemory, WXorXMemory, pages_of};
use crate::snapshot::Snapshot;
use crate::sources::Sources;
use std::fmt;
use std::ops::Range;

/// The registers of a machine.
pub const RISCV_GENERAL_REGISTER_NUMBER: usize = archive::REGISTERS;

/// The words of a page's record in the storage.
const RECORD_WORDS: usize = 3;

/// A machine: registers, pc and pending pc, version, cycles, a W^X memory, and a record for each page.
///
/// It owns all storage, which is made at creation and never grows. A page's record says from where in the sources the
/// page has its bytes; a snapshot then names that place in place of the bytes.
///
/// Registers, pc, cycles and version are this struct's own fields; all else is the archive's calls.
#[derive(Clone)]
pub struct Machine {
    pub(crate) registers: [u64; RISCV_GENERAL_REGISTER_NUMBER],
    pub(crate) pc: u64,
    pub(crate) next_pc: u64,
    version: u32,
    cycles: u64,
    max_cycles: u64,
    memory: WXorXMemory,
    records: Box<[u64]>,
    #[cfg(feature = "upstream")]
    pub(crate) upstream: crate::upstream::State,
}

/// A part of a program that is loaded at an address.
#[derive(Clone, Debug, PartialEq, Eq)]
pub struct LoadingAction {
    /// Where its pages begin.
    pub addr: u64,
    /// How many bytes its pages have.
    pub size: u64,
    /// The flags of its pages.
    pub flags: u8,
    /// Which bytes of the program it has.
    pub source: Range<u64>,
    /// How many zeros stand before them.
    pub offset_from_addr: u64,
}

impl LoadingAction {
    fn numbers(&self) -> [u64; 6] {
        let Range { start, end } = self.source;
        [self.addr, self.size, self.flags.into(), start, end, self.offset_from_addr]
    }
}

/// From where in the sources a page has its bytes, and its flag when that was recorded.
#[derive(Clone, Copy, Debug, PartialEq, Eq)]
pub struct PageRecord {
    /// The item.
    pub id: u64,
    /// Where in the item the page begins.
    pub offset: u64,
    /// The page's flag.
    pub flag: u8,
}

impl Machine {
    /// A fresh machine whose memory has `size` bytes and a slot for every page.
    ///
    /// Refused 9: a size that is not whole pages, or above [`RISCV_MAX_MEMORY`](crate::RISCV_MAX_MEMORY).
    pub fn new(version: u32, max_cycles: u64, size: u64) -> Result<Machine> {
        Machine::with_slots(version, max_cycles, size, pages_of(size))
    }

    /// A fresh machine whose memory has `size` bytes and so many slots: see
    /// [`WXorXMemory::with_slots`](crate::WXorXMemory::with_slots).
    ///
    /// A resume on it, or elsewhere from its snapshots, is only known to succeed where every page has a slot.
    pub fn with_slots(version: u32, max_cycles: u64, size: u64, slots: u16) -> Result<Machine> {
        let mut machine = Machine {
            registers: [0; RISCV_GENERAL_REGISTER_NUMBER],
            pc: 0,
            next_pc: 0,
            version,
            cycles: 0,
            max_cycles,
            memory: WXorXMemory::over(SparseMemory::storage(size, slots)),
            records: vec![0; RECORD_WORDS * usize::from(pages_of(size))].into(),
            #[cfg(feature = "upstream")]
            upstream: Default::default(),
        };
        machine.fresh_of(size, version, max_cycles)?;
        Ok(machine)
    }

    /// Makes it fresh again, on the same storage: registers, pc, pending pc and cycles 0, memory as
    /// [`WXorXMemory::fresh`](crate::WXorXMemory::fresh) has it, no page tracked.
    ///
    /// Refused 9: the memory was put in the place of one of another size; nothing changed.
    pub fn fresh(&mut self, version: u32, max_cycles: u64) -> Result<()> {
        self.fresh_of(self.memory.memory_size(), version, max_cycles)
    }

    fn fresh_of(&mut self, size: u64, version: u32, max_cycles: u64) -> Result<()> {
        let (tracked, _) = self.lend();
        let MachineAnswer { number, machine } = archive::machine_fresh(tracked, size, version, max_cycles);
        answer(number)?;
        self.take(machine);
        Ok(())
    }

    // ---- the machine's own numbers

    /// The program counter.
    #[inline]
    pub fn pc(&self) -> u64 {
        self.pc
    }

    /// Sets the pending program counter.
    #[inline]
    pub fn update_pc(&mut self, pc: u64) {
        self.next_pc = pc;
    }

    /// Makes the pending program counter the program counter.
    #[inline]
    pub fn commit_pc(&mut self) {
        self.pc = self.next_pc;
    }

    /// A register. Refused 10: number 32 or more.
    #[inline]
    pub fn register(&self, i: usize) -> Result<u64> {
        self.registers.get(i).copied().ok_or(Error::NoSuchRegister)
    }

    /// Sets a register; register 0 is set like the others. Refused 10: number 32 or more; nothing changed.
    #[inline]
    pub fn set_register(&mut self, i: usize, value: u64) -> Result<()> {
        *self.registers.get_mut(i).ok_or(Error::NoSuchRegister)? = value;
        Ok(())
    }

    /// All registers.
    #[inline]
    pub fn registers(&self) -> &[u64; RISCV_GENERAL_REGISTER_NUMBER] {
        &self.registers
    }

    /// The version.
    #[inline]
    pub fn version(&self) -> u32 {
        self.version
    }

    /// The cycles so far.
    #[inline]
    pub fn cycles(&self) -> u64 {
        self.cycles
    }

    /// Sets the cycles so far.
    #[inline]
    pub fn set_cycles(&mut self, cycles: u64) {
        self.cycles = cycles;
    }

    /// The maximum of cycles.
    #[inline]
    pub fn max_cycles(&self) -> u64 {
        self.max_cycles
    }

    /// Sets the maximum of cycles.
    #[inline]
    pub fn set_max_cycles(&mut self, max_cycles: u64) {
        self.max_cycles = max_cycles;
    }

    /// The memory.
    #[inline]
    pub fn memory(&self) -> &WXorXMemory {
        &self.memory
    }

    /// The memory, to store to. A memory of another size that is put in its place does not fit the records: the calls
    /// below are then refused 9.
    #[inline]
    pub fn memory_mut(&mut self) -> &mut WXorXMemory {
        &mut self.memory
    }

    // ---- tracking

    /// Records that the whole pages of `length` bytes at `start` have the bytes of item `id` from `offset` on, and
    /// clears their dirty flag. Partial pages are never tracked. That the bytes are so is the caller's word.
    ///
    /// Refused 2: a start, an offset or a page out of bounds; pages before it stay tracked.
    pub fn track_pages(&mut self, start: u64, length: u64, id: u64, offset: u64) -> Result<()> {
        let (tracked, numbers) = self.lend();
        answer(archive::track_pages(tracked, numbers, start, length, id, offset))
    }

    /// Marks the pages of `length` bytes at `start` dirty and drops their records.
    ///
    /// Refused 2: an end past the maximum, nothing changed; a page past the memory, pages before it changed.
    pub fn untrack_pages(&mut self, start: u64, length: u64) -> Result<()> {
        let (tracked, numbers) = self.lend();
        answer(archive::untrack_pages(tracked, numbers, start, length))
    }

    /// Stores an item's bytes from `offset` on, at most `length`, at `addr`, and how many remain from there in all as 8
    /// bytes at `size_addr`; the whole pages are tracked. It answers the bytes stored and how many remained.
    ///
    /// Refused 6: no such item or an offset above its length, nothing changed; else as W^X stores,
    /// [`untrack_pages`](Machine::untrack_pages) and [`track_pages`](Machine::track_pages) are: the steps before stay.
    pub fn context_store_bytes(
        &mut self,
        sources: &Sources,
        addr: u64,
        id: u64,
        offset: u64,
        length: u64,
        size_addr: u64,
    ) -> Result<(u64, u64)> {
        let (tracked, numbers) = self.lend();
        let ContextStored { number, used, stored, full } =
            archive::context_store_bytes(tracked, sources.lent(), numbers, addr, id, offset, length, size_addr);
        self.memory.inner_mut().numbers.used = used;
        answer(number).map(|()| (stored, full))
    }

    /// Tracks the pages of a program that was loaded by these actions from item `id`, its bytes beginning at `offset`.
    ///
    /// Refused 2: a sum or difference out of bounds, or as [`track_pages`](Machine::track_pages) is, at the first such
    /// action; those before it stay.
    pub fn mark_program(&mut self, actions: &[LoadingAction], id: u64, offset: u64) -> Result<()> {
        // of no action: the lengths
        self.mark(&[], id, offset)?;
        actions.iter().try_for_each(|action| self.mark(&action.numbers(), id, offset))
    }

    fn mark(&mut self, numbers: &[u64], id: u64, offset: u64) -> Result<()> {
        let (tracked, memory) = self.lend();
        answer(archive::mark_program(tracked, numbers, memory, id, offset))
    }

    /// What is tracked of a page; nothing of a dirty one. Refused 2: a page past the memory.
    pub fn page_record(&self, page: u64) -> Result<Option<PageRecord>> {
        let (seen, numbers) = self.memory.inner().show();
        let Recorded { number, tracked, id, offset, flag } = seen::page_record(seen, &self.records, numbers, page);
        answer(number)?;
        Ok((tracked != 0).then_some(PageRecord { id, offset, flag: flag as u8 }))
    }

    // ---- snapshot and resume

    /// Makes a snapshot: the dirty pages' bytes, where the tracked pages have theirs, registers, pc, cycles and
    /// reservation. A pending pc is not in it.
    ///
    /// Refused 8: buffers that are too short; what was in them stays.
    pub fn make_snapshot(&self, snapshot: &mut Snapshot) -> Result<()> {
        let (seen, _) = self.memory.inner().show();
        snapshot.make(|file, pages| seen::make_snapshot(seen, &self.records, file, pages, self.numbers()))
    }

    /// Resumes from a snapshot, with the sources that the stopped machine had.
    ///
    /// It succeeds on a fresh machine of the same version, size and slots, where the stopped one was sound: the two
    /// then answer all further calls alike. On a used machine, what the snapshot does not name stays as it was.
    ///
    /// Refused 11 where the record file is not in the form, 1 where it is of another version: nothing changed.
    /// Refused 2, 3, 4, 6 or 7 at the first run of pages that can't be restored: what was done before it stays.
    pub fn resume(&mut self, sources: &Sources, snapshot: &Snapshot) -> Result<()> {
        let machine = self.numbers();
        let (tracked, _) = self.lend();
        let MachineAnswer { number, machine } = archive::resume(tracked, sources.lent(), snapshot.lent(), machine);
        // on a refusal too: it has what was done before
        self.take(machine);
        answer(number)
    }

    // ---- over to the archive and back

    fn lend(&mut self) -> (Tracked<'_>, archive::Memory) {
        let (lent, numbers) = self.memory.inner_mut().lend();
        (Tracked { lent, records: &mut self.records }, numbers)
    }

    fn numbers(&self) -> archive::Machine {
        archive::Machine {
            registers: self.registers,
            pc: self.pc,
            next_pc: self.next_pc,
            version: self.version,
            cycles: self.cycles,
            max_cycles: self.max_cycles,
            memory: self.memory.inner().numbers,
        }
    }

    fn take(&mut self, machine: archive::Machine) {
        let archive::Machine { registers, pc, next_pc, version, cycles, max_cycles, memory } = machine;
        (self.registers, self.pc, self.next_pc, self.version) = (registers, pc, next_pc, version);
        (self.cycles, self.max_cycles) = (cycles, max_cycles);
        self.memory.inner_mut().numbers = memory;
    }
}

impl fmt::Debug for Machine {
    fn fmt(&self, f: &mut fmt::Formatter) -> fmt::Result {
        f.debug_struct("Machine")
            .field("registers", &self.registers)
            .field("pc", &self.pc)
            .field("next_pc", &self.next_pc)
            .field("version", &self.version)
            .field("cycles", &self.cycles)
            .field("max_cycles", &self.max_cycles)
            .field("memory", &self.memory)
            .finish_non_exhaustive()
    }
}
