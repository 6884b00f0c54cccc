//! Every method of a machine, of sources and of a snapshot, done and refused, on answers written from document 01.

use latchpebble::Error::{
    BadRecordFile, BadStorage, InvalidVersion, MemOutOfBound, MemPageUnalignedAccess, MemWriteOnExecutablePage,
    NoSuchRegister, OutputTooShort, SnapshotDataLoadError,
};
use latchpebble::{
    FEWEST_RECORDS, FLAG_DIRTY, FLAG_EXECUTABLE, FLAG_FREEZED, LoadingAction, MOST_RECORDS, Machine, PageRecord,
    RECORD_BYTES, RISCV_GENERAL_REGISTER_NUMBER, RISCV_MAX_MEMORY, RISCV_PAGES, RISCV_PAGESIZE, Snapshot, Sources,
    WXorXMemory,
};
use std::ops::Range;

const PAGE: u64 = RISCV_PAGESIZE;
const SIZE: u64 = 4 * PAGE;
const VERSION: u32 = 1;
const MAXIMUM: u64 = 1_000;
/// An item of so many bytes, byte i being i modulo 251.
const ITEM: u64 = 7;
const LENGTH: u64 = 10_000;

fn machine() -> Machine {
    Machine::new(VERSION, MAXIMUM, SIZE).unwrap()
}

fn sources() -> Sources {
    let mut sources = Sources::new();
    sources.add(ITEM, &(0..LENGTH).map(|i| (i % 251) as u8).collect::<Vec<_>>());
    sources.add(10, &[1; 10]);
    sources.add(ITEM, b"never found");
    sources
}

fn record(id: u64, offset: u64, flag: u8) -> Option<PageRecord> {
    Some(PageRecord { id, offset, flag })
}

fn records(machine: &Machine) -> [Option<PageRecord>; 4] {
    [0, 1, 2, 3].map(|page| machine.page_record(page).unwrap())
}

fn flags(machine: &Machine) -> [u8; 4] {
    [0, 1, 2, 3].map(|page| machine.memory().fetch_flag(page).unwrap())
}

/// A record file of words.
fn file(records: &[[u64; 6]]) -> Vec<u8> {
    records.iter().flatten().flat_map(|word| word.to_le_bytes()).collect()
}

/// The nine first records of a file: a state with this version, pc 1, 2 cycles of 3, reservation 4; register i is 100 + i.
fn head(version: u64) -> Vec<[u64; 6]> {
    let registers = (0..32).step_by(4).map(|i| [2, i, 100 + i, 101 + i, 102 + i, 103 + i]);
    [[1, version, 1, 2, 3, 4]].into_iter().chain(registers).collect()
}

fn resumed(runs: &[[u64; 6]], pages: &[u8]) -> (Machine, latchpebble::Result<()>) {
    let mut machine = machine();
    let records = [head(VERSION.into()), runs.to_vec()].concat();
    let answer = machine.resume(&sources(), &Snapshot::from_files(file(&records), pages));
    (machine, answer)
}

#[test]
fn own_numbers() {
    let mut machine = machine();
    assert_eq!((machine.version(), machine.cycles(), machine.max_cycles()), (VERSION, 0, MAXIMUM));
    assert_eq!((machine.pc(), machine.registers()), (0, &[0; RISCV_GENERAL_REGISTER_NUMBER]));
    machine.update_pc(8);
    assert_eq!(machine.pc(), 0);
    machine.commit_pc();
    assert_eq!(machine.pc(), 8);
    machine.set_cycles(5);
    machine.set_max_cycles(6);
    assert_eq!((machine.cycles(), machine.max_cycles()), (5, 6));
    for i in 0..RISCV_GENERAL_REGISTER_NUMBER {
        assert_eq!(machine.set_register(i, 100 + i as u64), Ok(()));
    }
    for i in 0..RISCV_GENERAL_REGISTER_NUMBER {
        assert_eq!(machine.register(i), Ok(100 + i as u64));
        assert_eq!(machine.registers()[i], 100 + i as u64);
    }
    for i in [RISCV_GENERAL_REGISTER_NUMBER, usize::MAX] {
        assert_eq!((machine.register(i), machine.set_register(i, 0)), (Err(NoSuchRegister), Err(NoSuchRegister)));
    }
    assert!(format!("{machine:?}").starts_with("Machine { registers: [100, 101,"));
}

#[test]
fn sizes() {
    for size in [0, SIZE, RISCV_MAX_MEMORY] {
        let machine = Machine::new(2, 0, size).unwrap();
        assert_eq!((machine.version(), machine.memory().memory_size()), (2, size));
    }
    for size in [1, RISCV_MAX_MEMORY + PAGE, u64::MAX] {
        assert_eq!(Machine::new(VERSION, 0, size).unwrap_err(), BadStorage);
        assert_eq!(Machine::with_slots(VERSION, 0, size, 0).unwrap_err(), BadStorage);
    }
    let mut few = Machine::with_slots(VERSION, 0, SIZE, 1).unwrap();
    assert_eq!(few.memory_mut().store8(PAGE, 1), Ok(()));
    assert_eq!(few.memory_mut().store8(0, 1).unwrap_err().number(), 7);
}

#[test]
fn fresh_again() {
    let mut machine = machine();
    machine.context_store_bytes(&sources(), 0, ITEM, 0, PAGE, PAGE).unwrap();
    machine.set_register(3, 3).unwrap();
    machine.update_pc(4);
    machine.set_cycles(9);
    assert_eq!(machine.fresh(2, 50), Ok(()));
    machine.commit_pc();
    assert_eq!((machine.pc(), machine.version(), machine.cycles(), machine.max_cycles()), (0, 2, 0, 50));
    assert_eq!(machine.registers(), &[0; RISCV_GENERAL_REGISTER_NUMBER]);
    assert_eq!((records(&machine), flags(&machine)), ([None; 4], [0; 4]));
    assert_eq!((machine.memory().load64(8), machine.memory().lr()), (Ok(0), u64::MAX));
}

#[test]
fn a_memory_of_another_size() {
    let mut machine = machine();
    *machine.memory_mut() = WXorXMemory::new(2 * PAGE).unwrap();
    let actions = [];
    assert_eq!(machine.memory_mut().store8(0, 1), Ok(()));
    assert_eq!(machine.track_pages(0, 0, 1, 0), Err(BadStorage));
    assert_eq!(machine.untrack_pages(0, 0), Err(BadStorage));
    assert_eq!(machine.context_store_bytes(&sources(), 0, ITEM, 0, 0, 0), Err(BadStorage));
    assert_eq!(machine.mark_program(&actions, 1, 0), Err(BadStorage));
    assert_eq!(machine.page_record(0), Err(BadStorage));
    assert_eq!(machine.make_snapshot(&mut Snapshot::for_pages(4)), Err(BadStorage));
    assert_eq!(machine.resume(&sources(), &Snapshot::for_pages(4)), Err(BadStorage));
    assert_eq!(machine.fresh(3, 0), Err(BadStorage));
    assert_eq!((machine.version(), machine.memory().memory_size()), (VERSION, 2 * PAGE));
}

#[test]
fn source_items() {
    let sources = sources();
    assert_eq!(sources.load_data(10, 0, 4), Ok((&[1; 4][..], 10)));
    assert_eq!(sources.load_data(10, 7, u64::MAX), Ok((&[1; 3][..], 3)));
    assert_eq!(sources.load_data(10, 10, 1), Ok((&[][..], 0)));
    assert_eq!(sources.load_data(10, 11, 0), Err(SnapshotDataLoadError));
    assert_eq!(sources.load_data(11, 0, 0), Err(SnapshotDataLoadError));
    assert_eq!(sources.load_data(ITEM, 250, 3), Ok((&[250, 0, 1][..], LENGTH - 250)));
    assert_eq!(Sources::new().load_data(0, 0, 0), Err(SnapshotDataLoadError));
}

#[test]
fn tracking() {
    let mut machine = machine();
    let none = [None; 4];
    for (start, length) in [(4_096, 4_095), (1, 4_094)] {
        assert_eq!(machine.track_pages(start, length, ITEM, 0), Ok(()));
        assert_eq!(records(&machine), none);
    }
    machine.memory_mut().set_flag(1, FLAG_DIRTY | FLAG_FREEZED).unwrap();
    assert_eq!(machine.track_pages(100, 10_000, ITEM, 0), Ok(()));
    assert_eq!(records(&machine), [None, record(ITEM, 3_996, FLAG_FREEZED), None, None]);
    assert_eq!(flags(&machine), [0, FLAG_FREEZED, 0, 0]);
    // past the machine: the page before it stays tracked
    assert_eq!(machine.track_pages(3 * PAGE, 2 * PAGE, 8, 5), Err(MemOutOfBound));
    assert_eq!(machine.page_record(3), Ok(record(8, 5, 0)));
    assert_eq!(machine.track_pages(u64::MAX, u64::MAX, 8, 5), Err(MemOutOfBound));
    assert_eq!((machine.page_record(4), machine.page_record(u64::MAX)), (Err(MemOutOfBound), Err(MemOutOfBound)));

    assert_eq!(machine.untrack_pages(0, 0), Ok(()));
    assert_eq!(machine.untrack_pages(RISCV_MAX_MEMORY, 1), Err(MemOutOfBound));
    assert_eq!(records(&machine)[1..], [record(ITEM, 3_996, FLAG_FREEZED), None, record(8, 5, 0)]);
    assert_eq!(machine.untrack_pages(3 * PAGE, PAGE + 1), Err(MemOutOfBound));
    assert_eq!(machine.untrack_pages(PAGE, 1), Ok(()));
    assert_eq!(flags(&machine), [0, FLAG_DIRTY | FLAG_FREEZED, 0, FLAG_DIRTY]);
    // dropped, not only hidden by the dirty flag
    machine.memory_mut().clear_flag(1, FLAG_DIRTY).unwrap();
    machine.memory_mut().clear_flag(3, FLAG_DIRTY).unwrap();
    assert_eq!(records(&machine), none);
}

#[test]
fn context_store() {
    let (mut machine, sources) = (machine(), sources());
    assert_eq!(machine.context_store_bytes(&sources, 100, ITEM, 1, 9_000, 16_376), Ok((9_000, LENGTH - 1)));
    assert_eq!(machine.memory().load64(16_376), Ok(LENGTH - 1));
    let mut bytes = vec![0; 9_000];
    machine.memory().load_bytes(100, &mut bytes).unwrap();
    assert_eq!(Ok((&bytes[..], LENGTH - 1)), sources.load_data(ITEM, 1, 9_000));
    assert_eq!(records(&machine), [None, record(ITEM, 3_997, 0), None, None]);
    assert_eq!(flags(&machine), [FLAG_DIRTY, 0, FLAG_DIRTY, FLAG_DIRTY]);
    // an earlier step stays when a later one is refused
    assert_eq!(machine.context_store_bytes(&sources, SIZE - 1, ITEM, 0, 2, 8), Err(MemOutOfBound));
    assert_eq!((machine.memory().load64(8), machine.memory().load8(SIZE - 1)), (Ok(LENGTH), Ok(0)));
    for (id, offset) in [(ITEM, LENGTH + 1), (8, 0)] {
        assert_eq!(machine.context_store_bytes(&sources, 0, id, offset, 1, 8), Err(SnapshotDataLoadError));
    }
    machine.memory_mut().set_flag(2, FLAG_EXECUTABLE).unwrap();
    assert_eq!(machine.context_store_bytes(&sources, 2 * PAGE, ITEM, 0, 1, 8), Err(MemWriteOnExecutablePage));
    // each of its slots is kept count of
    let mut few = Machine::with_slots(VERSION, 0, SIZE, 2).unwrap();
    assert_eq!(few.context_store_bytes(&sources, PAGE, ITEM, 0, 2 * PAGE, 0).unwrap_err().number(), 7);
    assert_eq!((few.memory().load64(0), few.memory().load8(PAGE + 9)), (Ok(LENGTH), Ok(9)));
    assert_eq!(few.memory_mut().store8(3 * PAGE, 1).unwrap_err().number(), 7);
}

#[test]
fn marked_programs() {
    let mut machine = machine();
    let action =
        |addr, size, source, offset_from_addr| LoadingAction { addr, size, flags: 2, source, offset_from_addr };
    assert_eq!(machine.mark_program(&[], 1, 0), Ok(()));
    let actions = [action(0, PAGE, 10..10 + PAGE, 0), action(PAGE, 2 * PAGE, 5..9_000, 4_000)];
    assert_eq!(machine.mark_program(&actions, 1, 30), Ok(()));
    assert_eq!(records(&machine), [record(1, 40, 0), None, record(1, 131, 0), None]);
    // the action before the refused one stays, that after it is not looked at
    let mut machine = self::machine();
    let actions =
        [action(0, PAGE, 0..PAGE, 0), action(0, 1, Range { start: 1, end: 0 }, 0), action(PAGE, PAGE, 0..PAGE, 0)];
    assert_eq!(machine.mark_program(&actions, 1, 0), Err(MemOutOfBound));
    assert_eq!(records(&machine), [record(1, 0, 0), None, None, None]);
}

#[test]
fn snapshots() {
    let mut machine = machine();
    machine.set_register(31, 31).unwrap();
    machine.update_pc(77);
    machine.memory_mut().store_bytes(2 * PAGE, &[9; 2 * PAGE as usize]).unwrap();
    let mut snapshot = Snapshot::for_pages(4);
    assert_eq!((snapshot.records(), snapshot.pages()), (&[][..], &[][..]));
    assert_eq!(machine.make_snapshot(&mut snapshot), Ok(()));
    assert_eq!(snapshot.pages(), [9; 2 * PAGE as usize]);
    let mut expected = vec![[1, VERSION.into(), 0, 0, MAXIMUM, u64::MAX]];
    expected.extend((0..7).map(|i| [2, 4 * i, 0, 0, 0, 0]));
    expected.extend([[2, 28, 0, 0, 0, 31], [4, 2 * PAGE, FLAG_DIRTY.into(), 2, 0, 0]]);
    assert_eq!(snapshot.records(), file(&expected));
    assert_eq!(format!("{snapshot:?}"), "Snapshot { records: 480 bytes, pages: 8192 bytes }");
    // too short: what is there stays
    let before = snapshot.clone();
    let mut three = Machine::new(VERSION, 0, 8 * PAGE).unwrap();
    three.memory_mut().store_byte(0, 5 * PAGE, 1).unwrap();
    assert_eq!(three.make_snapshot(&mut snapshot), Err(OutputTooShort));
    assert_eq!((snapshot.records(), snapshot.pages()), (before.records(), before.pages()));
    // a shorter one after a longer one
    assert_eq!(self::machine().make_snapshot(&mut snapshot), Ok(()));
    assert_eq!((snapshot.records().len() as u64, snapshot.pages().len()), (FEWEST_RECORDS * RECORD_BYTES, 0));
}

#[test]
fn snapshots_of_the_most_records() {
    // each page a run of its own
    let mut machine = Machine::new(VERSION, 0, RISCV_MAX_MEMORY).unwrap();
    for page in 0..RISCV_PAGES {
        machine.memory_mut().store8(page * PAGE, page).unwrap();
        machine.memory_mut().set_flag(page, page as u8 % 2).unwrap();
    }
    for pages in [RISCV_PAGES, u64::MAX] {
        let mut snapshot = Snapshot::for_pages(pages);
        assert_eq!(machine.make_snapshot(&mut snapshot), Ok(()));
        assert_eq!(snapshot.records().len() as u64, MOST_RECORDS * RECORD_BYTES);
        assert_eq!(snapshot.pages().len() as u64, RISCV_MAX_MEMORY);
    }
    assert_eq!(machine.make_snapshot(&mut Snapshot::for_pages(RISCV_PAGES - 1)), Err(OutputTooShort));
    let mut resumed = Machine::new(VERSION, 0, RISCV_MAX_MEMORY).unwrap();
    let mut snapshot = Snapshot::for_pages(RISCV_PAGES);
    machine.make_snapshot(&mut snapshot).unwrap();
    assert_eq!(resumed.resume(&Sources::new(), &snapshot), Ok(()));
    assert_eq!(resumed.memory().load8(513 * PAGE), Ok(1));
}

#[test]
fn resumes() {
    let page = [5; PAGE as usize];
    let (machine, answer) = resumed(&[[3, PAGE, 1, ITEM, 100, PAGE], [4, 3 * PAGE, 6, 1, 0, 0]], &page);
    assert_eq!(answer, Ok(()));
    assert_eq!((machine.pc(), machine.cycles(), machine.max_cycles(), machine.memory().lr()), (1, 2, 3, 4));
    assert!((100..132).eq(machine.registers().iter().copied()));
    assert_eq!(records(&machine), [None, record(ITEM, 100, FLAG_FREEZED), None, None]);
    assert_eq!(flags(&machine), [0, FLAG_FREEZED, 0, FLAG_DIRTY | FLAG_EXECUTABLE]);
    assert_eq!((machine.memory().load8(PAGE + 1), machine.memory().load8(SIZE - 1)), (Ok(101), Ok(5)));
    // the pending pc is set too
    let mut machine = machine;
    machine.commit_pc();
    assert_eq!(machine.pc(), 1);
}

#[test]
fn refused_resumes() {
    // before anything is changed
    let mut machine = machine();
    machine.track_pages(0, PAGE, 1, 0).unwrap();
    machine.update_pc(77);
    let (good, other) = (head(VERSION.into()), head(2));
    for (records, pages, refusal) in [
        (&good[..8], 0, BadRecordFile),
        (&[][..], 0, BadRecordFile),
        (&good[..], 1, BadRecordFile),
        (&other[..], 1, BadRecordFile),
        (&other[..], 0, InvalidVersion),
    ] {
        let snapshot = Snapshot::from_files(file(records), vec![0; pages]);
        assert_eq!(machine.resume(&sources(), &snapshot), Err(refusal));
        assert_eq!((machine.pc(), machine.registers()[1], machine.memory().lr()), (0, 0, u64::MAX));
        assert_eq!(machine.page_record(0), Ok(record(1, 0, 0)));
    }
    machine.commit_pc();
    assert_eq!(machine.pc(), 77);
    // a run that can't be restored: those before it and the numbers stay, the reservation is not set
    let first = [3, PAGE, 0, ITEM, 0, PAGE];
    for (run, refusal) in [
        ([3, 1, 0, ITEM, 0, PAGE], MemPageUnalignedAccess),
        ([3, 0, 0, 8, 0, PAGE], SnapshotDataLoadError),
        ([3, 0, 0, ITEM, 0, PAGE + 1], MemPageUnalignedAccess),
        ([3, SIZE, 0, ITEM, 0, PAGE], MemOutOfBound),
        ([4, 1, 0, 0, 0, 0], MemPageUnalignedAccess),
    ] {
        let (machine, answer) = resumed(&[first, run], &[]);
        assert_eq!(answer, Err(refusal));
        assert_eq!((machine.pc(), machine.registers()[31], machine.cycles()), (1, 131, 2));
        assert_eq!((machine.memory().load8(PAGE + 1), machine.memory().lr()), (Ok(1), u64::MAX));
        assert_eq!(records(&machine), [None, record(ITEM, 0, 0), None, None]);
    }
    // slots that a refused resume took are kept count of
    let mut few = Machine::with_slots(VERSION, 0, SIZE, 1).unwrap();
    let runs = [head(VERSION.into()), vec![[4, 0, 4, 2, 0, 0]]].concat();
    let snapshot = Snapshot::from_files(file(&runs), vec![6; 2 * PAGE as usize]);
    assert_eq!(few.resume(&Sources::new(), &snapshot).unwrap_err().number(), 7);
    assert_eq!(few.memory().load8(0), Ok(6));
    assert_eq!(few.memory_mut().store8(PAGE, 1).unwrap_err().number(), 7);
}
