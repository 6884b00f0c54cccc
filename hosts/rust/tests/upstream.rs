//! ckb-vm's memories and machine and this crate's, by the same code over ckb-vm's traits: every answer is equal.
//!
//! Kept out are the inputs on which ckb-vm panics or overflows a sum: starts in the last page of the addresses, offsets
//! in the upper half of the numbers, and actions with an end before the start or a lead above the size.
#![cfg(feature = "upstream")]

#[path = "../examples/interpreter/mod.rs"]
mod interpreter;
#[path = "../../../oracle/recordfile.rs"]
mod recordfile;
mod seeded;

use ckb_vm::elf::{LoadingAction, ProgramMetadata};
use ckb_vm::machine::{
    CoreMachine, DefaultCoreMachine, DefaultMachine, DefaultMachineBuilder, FlattenedArgsReader,
    Machine as InstructionMachine, SupportMachine,
};
use ckb_vm::memory::{self, FLAG_DIRTY, FLAG_EXECUTABLE, FLAG_FREEZED, Memory, load_c_string_byte_by_byte};
use ckb_vm::registers::{A0, A7, SP};
use ckb_vm::snapshot2::{DataSource, Snapshot2, Snapshot2Context};
use ckb_vm::syscalls::Syscalls;
use ckb_vm::{Bytes, Error};
use interpreter::{Core, End};
use latchpebble::{Machine, Snapshot, Sources, SparseMemory, WXorXMemory};
use recordfile::{RECORD, decode, encode};
use seeded::Seeded;
use std::fmt::Debug;
use std::panic::{AssertUnwindSafe, catch_unwind};

type TheirSparse = memory::sparse::SparseMemory<u64>;
type TheirWXorX = memory::wxorx::WXorXMemory<TheirSparse>;
type TheirMachine = DefaultCoreMachine<u64, TheirWXorX>;

const PAGE: u64 = ckb_vm::RISCV_PAGESIZE as u64;
const MAX: u64 = ckb_vm::RISCV_MAX_MEMORY as u64;

// ---- answers

/// What each call answered: values, or the error's name.
#[derive(Default)]
struct Transcript {
    answers: Vec<String>,
    refused: usize,
}

impl Transcript {
    fn note(&mut self, call: &str, answer: Result<impl Debug, impl Debug>) {
        self.refused += usize::from(answer.is_err());
        self.answers.push(match answer {
            Ok(value) => format!("{call}: {value:?}"),
            Err(name) => format!("{call}: {name:?}"),
        });
    }

    fn say(&mut self, call: &str, value: impl Debug) {
        self.note(call, Ok::<_, ()>(value));
    }
}

/// At least a tenth of what is compared is refused, and a fifth is not.
fn both_kinds(answers: usize, refused: usize) {
    println!("{answers} answers compared, {refused} refusals among them");
    assert!(refused * 10 > answers && refused * 10 < answers * 8, "{refused} of {answers} refused");
}

/// Equal, every answer.
fn hold(theirs: &Transcript, ours: &Transcript) {
    for (i, (their, our)) in theirs.answers.iter().zip(&ours.answers).enumerate() {
        assert_eq!(their, our, "answer {i}");
    }
    assert_eq!(theirs.answers.len(), ours.answers.len());
}

// ---- inputs

/// In the memory, at its end, at the maximum, anywhere.
fn address(seeded: &mut Seeded, size: u64) -> u64 {
    let (near, word) = (seeded.below(12), seeded.word());
    let page = seeded.below(size / PAGE + 1) * PAGE;
    let inside = word % size.max(1);
    seeded.one_of(&[
        inside,
        inside,
        page + near,
        page.wrapping_sub(near),
        page,
        size - near.min(size),
        MAX - near,
        word,
    ])
}

fn length(seeded: &mut Seeded) -> u64 {
    let word = seeded.word();
    seeded.one_of(&[0, 1, 2, 7, 8, word % 64, word % PAGE, PAGE, 2 * PAGE, word % (3 * PAGE), word % (8 * PAGE), word])
}

/// For what is handed over as bytes.
fn bytes(seeded: &mut Seeded) -> Vec<u8> {
    let length = seeded.one_of(&[0, 1, 8, 100, 4_095, 4_096, 9_000]);
    let first = seeded.word() as u8;
    (0..length).map(|i| first.wrapping_mul(i as u8 | 1).wrapping_add((i >> 8) as u8)).collect()
}

// ---- memories

/// The functions beside the memories: ckb-vm's over its own memories, this crate's over its sparse memory. A W^X memory
/// of this crate is given to ckb-vm's.
trait Functions: Memory<REG = u64> + Sized {
    fn check(&mut self, pages: (u64, u64), flag: u8) -> Result<(), String> {
        memory::check_permission(self, &pages, flag).map_err(|error| format!("{error:?}"))
    }
    fn dirty(&mut self, pages: (u64, u64)) -> Result<(), String> {
        memory::set_dirty(self, &pages).map_err(|error| format!("{error:?}"))
    }
    fn fill(&mut self, addr: u64, size: u64, source: &[u8], lead: u64) -> Result<(), String> {
        memory::fill_page_data(self, addr, size, Some(source.to_vec().into()), lead)
            .map_err(|error| format!("{error:?}"))
    }
    fn c_string(&mut self, addr: u64) -> Result<Vec<u8>, String> {
        load_c_string_byte_by_byte(self, &addr).map(Into::into).map_err(|error| format!("{error:?}"))
    }
}

impl Functions for TheirSparse {}
impl Functions for TheirWXorX {}
impl Functions for WXorXMemory {}

impl Functions for SparseMemory {
    fn check(&mut self, pages: (u64, u64), flag: u8) -> Result<(), String> {
        latchpebble::check_permission(self, pages, flag).map_err(|error| format!("{error:?}"))
    }
    fn dirty(&mut self, pages: (u64, u64)) -> Result<(), String> {
        latchpebble::set_dirty(self, pages).map_err(|error| format!("{error:?}"))
    }
    fn fill(&mut self, addr: u64, size: u64, source: &[u8], lead: u64) -> Result<(), String> {
        latchpebble::fill_page_data(self, addr, size, source, lead).map_err(|error| format!("{error:?}"))
    }
    fn c_string(&mut self, addr: u64) -> Result<Vec<u8>, String> {
        let mut out = vec![0; SparseMemory::memory_size(self) as usize];
        let length = self.load_c_string(addr, &mut out).map_err(|error| format!("{error:?}"))?;
        out.truncate(length);
        Ok(out)
    }
}

/// So many random calls, then all bytes and flags.
fn memory_calls<M: Functions>(memory: &mut M, seeded: &mut Seeded, calls: usize) -> Transcript {
    let mut all = Transcript::default();
    let size = memory.memory_size() as u64;
    for _ in 0..calls {
        one_memory_call(memory, size, seeded, &mut all);
    }
    everything(memory, &mut all);
    all
}

fn everything<M: Memory<REG = u64>>(memory: &mut M, all: &mut Transcript) {
    let size = memory.memory_size();
    all.say("sizes", (size, memory.memory_pages(), *memory.lr()));
    for page in 0..memory.memory_pages() as u64 {
        all.note("fetch_flag", memory.fetch_flag(page));
        all.note("load_bytes", memory.load_bytes(page * PAGE, PAGE).map(|bytes| hash(&bytes)));
    }
}

/// FNV: bytes that differ are seen, and a transcript stays short.
fn hash(bytes: &[u8]) -> u64 {
    bytes.iter().fold(0xcbf2_9ce4_8422_2325, |hash, byte| (hash ^ u64::from(*byte)).wrapping_mul(0x100_0000_01b3))
}

fn one_memory_call<M: Functions>(memory: &mut M, size: u64, seeded: &mut Seeded, all: &mut Transcript) {
    let (addr, value, length) = (address(seeded, size), seeded.word(), length(seeded));
    let any = seeded.word();
    let page = seeded.one_of(&[addr / PAGE, addr / PAGE, any % (size / PAGE + 2), any]);
    let flag = seeded.one_of(&[0, FLAG_FREEZED, FLAG_EXECUTABLE, FLAG_DIRTY, value as u8]);
    let near = page.saturating_add(value % 4);
    match seeded.below(26) {
        0 => all.note("store8", memory.store8(&addr, &value)),
        1 => all.note("store16", memory.store16(&addr, &value)),
        2 => all.note("store32", memory.store32(&addr, &value)),
        3 => all.note("store64", memory.store64(&addr, &value)),
        4 => all.note("store_byte", memory.store_byte(addr, length, value as u8)),
        5 | 6 => all.note("store_bytes", memory.store_bytes(addr, &bytes(seeded))),
        7 => all.note("load8", memory.load8(&addr)),
        8 => all.note("load16", memory.load16(&addr)),
        9 => all.note("load32", memory.load32(&addr)),
        10 => all.note("load64", memory.load64(&addr)),
        11 => all.note("execute_load16", memory.execute_load16(addr)),
        12 => all.note("execute_load32", memory.execute_load32(addr)),
        13 => all.note("load_bytes", memory.load_bytes(addr, length).map(|bytes| (bytes.len(), hash(&bytes)))),
        14 => all.note("fetch_flag", memory.fetch_flag(page)),
        15 => all.note("set_flag", memory.set_flag(page, flag)),
        16 => all.note("clear_flag", memory.clear_flag(page, flag)),
        // so that not all pages become executable or frozen
        17 => all.note("clear_flag", memory.clear_flag(page, FLAG_EXECUTABLE | FLAG_FREEZED)),
        18..=20 => {
            let source = seeded.one_of(&[true, true, false]).then(|| bytes(seeded).into());
            let (start, whole) = (addr / PAGE * PAGE, length % (4 * PAGE) / PAGE * PAGE);
            let (start, whole) = seeded.one_of(&[(start, whole), (start, whole), (start, whole), (addr, length)]);
            let lead = seeded.one_of(&[0, 0, value % 9, value % (whole | 1), whole, value]);
            all.note("init_pages", memory.init_pages(start, whole, flag, source, lead));
        }
        21 => {
            memory.set_lr(&value);
            all.say("lr", *memory.lr());
        }
        22 => all.note("check_permission", memory.check((page, near), flag)),
        23 => all.note("set_dirty", memory.dirty((page, near))),
        24 => {
            let source = bytes(seeded);
            all.note("fill_page_data", memory.fill(addr, length % (3 * PAGE), &source, value % 5_000));
        }
        _ => {
            all.note("c_string", memory.c_string(addr).map(|bytes| hash(&bytes)));
            // so that strings end
            all.note("store8", memory.store8(&addr, &0));
        }
    }
}

/// Sizes in pages, and calls on each.
const MEMORIES: [(u64, usize); 5] = [(0, 500), (1, 4_000), (4, 20_000), (16, 20_000), (1_024, 4_000)];

fn memories_alike<Theirs: Functions, Ours: Functions>() {
    let (mut answers, mut refused) = (0, 0);
    for (pages, calls) in MEMORIES {
        for seed in 0..3 {
            let seeded = Seeded(seed << 32 | pages);
            let theirs =
                memory_calls(&mut Theirs::new_with_memory((pages * PAGE) as usize), &mut seeded.clone(), calls);
            let ours = memory_calls(&mut Ours::new_with_memory((pages * PAGE) as usize), &mut seeded.clone(), calls);
            hold(&theirs, &ours);
            answers += theirs.answers.len();
            refused += theirs.refused;
        }
    }
    both_kinds(answers, refused);
}

#[test]
fn sparse_memories() {
    memories_alike::<TheirSparse, SparseMemory>();
}

#[test]
fn wxorx_memories() {
    memories_alike::<TheirWXorX, WXorXMemory>();
}

#[test]
fn whole_memories() {
    assert_eq!(<SparseMemory as Memory>::new().memory_size(), <TheirSparse as Memory>::new().memory_size() as u64);
    assert_eq!(<WXorXMemory as Memory>::new().memory_size(), <TheirWXorX as Memory>::new().memory_size() as u64);
    let ours = <Machine as SupportMachine>::new(0, 1, 5);
    let theirs = <TheirMachine as SupportMachine>::new(0, 1, 5);
    assert_eq!(ours.memory().memory_size(), theirs.memory().memory_size() as u64);
}

#[test]
fn rounding_and_pages() {
    let seeded = &mut Seeded(9);
    for _ in 0..100_000 {
        let (addr, size) = (address(seeded, 16 * PAGE), length(seeded).max(1));
        assert_eq!(latchpebble::round_page_up(addr), memory::round_page_up(addr));
        assert_eq!(latchpebble::round_page_down(addr), memory::round_page_down(addr));
        let ours = latchpebble::get_page_indices(addr, size).map_err(|error| format!("{error:?}"));
        assert_eq!(ours, memory::get_page_indices(addr, size).map_err(|error| format!("{error:?}")));
    }
}

#[test]
fn constants() {
    assert_eq!(latchpebble::RISCV_PAGESIZE, PAGE);
    assert_eq!(latchpebble::RISCV_MAX_MEMORY, MAX);
    assert_eq!(latchpebble::RISCV_GENERAL_REGISTER_NUMBER, ckb_vm::RISCV_GENERAL_REGISTER_NUMBER);
    let ours = [
        latchpebble::FLAG_FREEZED,
        latchpebble::FLAG_EXECUTABLE,
        latchpebble::FLAG_WXORX_BIT,
        latchpebble::FLAG_WRITABLE,
        latchpebble::FLAG_DIRTY,
    ];
    let theirs = [FLAG_FREEZED, FLAG_EXECUTABLE, memory::FLAG_WXORX_BIT, memory::FLAG_WRITABLE, FLAG_DIRTY];
    assert_eq!(ours, theirs);
}

/// Where the upstream panics by an assertion, so does the trait here.
#[test]
fn panics() {
    fn both(theirs: impl FnOnce(), ours: impl FnOnce()) {
        let panics = |work: &mut dyn FnMut()| catch_unwind(AssertUnwindSafe(work)).is_err();
        let (mut theirs, mut ours) = (Some(theirs), Some(ours));
        assert!(panics(&mut || theirs.take().unwrap()()), "ckb-vm does not panic");
        assert!(panics(&mut || ours.take().unwrap()()), "this crate does not panic");
    }
    for size in [1, PAGE + 1, MAX + PAGE].map(|size| size as usize) {
        both(|| drop(TheirSparse::new_with_memory(size)), || drop(SparseMemory::new_with_memory(size)));
        both(|| drop(TheirWXorX::new_with_memory(size)), || drop(WXorXMemory::new_with_memory(size)));
        both(|| drop(TheirMachine::new_with_memory(0, 1, 0, size)), || drop(Machine::new_with_memory(0, 1, 0, size)));
    }
    for register in [32, usize::MAX] {
        let (mut theirs, mut ours) = (their_machine(4), our_machine(4));
        both(|| theirs.set_register(register, 0), || CoreMachine::set_register(&mut ours, register, 0));
    }
}

/// The refusals as ckb-vm's errors, and how those without one are met.
#[test]
fn refusals_as_errors() {
    for refusal in latchpebble::Error::ALL {
        let error = Error::from(refusal);
        match refusal.number() {
            1..=6 => assert_eq!(format!("{error:?}"), format!("{refusal:?}")),
            _ => assert!(matches!(error, Error::Unexpected(text) if text == refusal.to_string())),
        }
    }
    let mut few = WXorXMemory::with_slots(4 * PAGE, 1).unwrap();
    let memory: &mut dyn FnMut(u64) -> Result<(), Error> = &mut |addr| Memory::store8(&mut few, &addr, &1);
    assert!(memory(0).is_ok());
    assert!(matches!(memory(PAGE), Err(Error::Unexpected(text)) if text.starts_with("7: ")));
}

// ---- machines

/// The sources of ckb-vm's machine: nothing of this crate's.
#[derive(Clone)]
struct Items(Vec<(u64, Vec<u8>)>);

impl DataSource<u64> for Items {
    fn load_data(&self, id: &u64, offset: u64, length: u64) -> Option<(Bytes, u64)> {
        let (_, item) = self.0.iter().find(|item| item.0 == *id)?;
        let rest = item.get(usize::try_from(offset).ok()?..)?;
        let count = length.min(rest.len() as u64) as usize;
        Some((rest[..count].to_vec().into(), rest.len() as u64))
    }
}

/// A program of whole pages, readings, a few bytes, nothing.
fn items() -> Items {
    let seeded = &mut Seeded(77);
    Items([(1, 3 * 4_096), (7, 10_000), (u64::MAX, 10), (2, 0)].map(|(id, length)| (id, seeded.bytes(length))).into())
}

fn sources() -> Sources {
    let mut sources = Sources::new();
    items().0.iter().for_each(|(id, item)| sources.add(*id, item));
    sources
}

const ISA: u8 = 5;
const VERSION: u32 = 1;

fn their_machine(pages: u64) -> TheirMachine {
    TheirMachine::new_with_memory(ISA, VERSION, 1_000, (pages * PAGE) as usize)
}

fn our_machine(pages: u64) -> Machine {
    Machine::new_with_memory(ISA, VERSION, 1_000, (pages * PAGE) as usize)
}

type Answer<T> = Result<T, String>;

fn named<T>(answer: Result<T, impl Debug>) -> Answer<T> {
    answer.map_err(|error| format!("{error:?}"))
}

/// A machine with what tracks its pages. Files are document 01's.
trait Host {
    type Machine: SupportMachine<REG = u64, MEM: Functions>;

    fn machine(&mut self) -> &mut Self::Machine;
    fn load_data(&self, id: u64, offset: u64, length: u64) -> Answer<(Vec<u8>, u64)>;
    fn store_bytes(&mut self, addr: u64, id: u64, offset: u64, length: u64, size_addr: u64) -> Answer<(u64, u64)>;
    fn track_pages(&mut self, start: u64, length: u64, id: u64, offset: u64) -> Answer<()>;
    fn untrack_pages(&mut self, start: u64, length: u64) -> Answer<()>;
    fn mark_program(&mut self, metadata: &ProgramMetadata, id: u64, offset: u64) -> Answer<()>;
    fn make_snapshot(&mut self) -> Answer<(Vec<u8>, Vec<u8>)>;
    fn resume(&mut self, files: &(Vec<u8>, Vec<u8>)) -> Answer<()>;
    /// The machine reset, and no page tracked.
    fn reset(&mut self, max_cycles: u64);
}

/// Pages tracked by ckb-vm's own context, over any machine.
struct Context<M, D: DataSource<u64>> {
    machine: M,
    sources: D,
    context: Snapshot2Context<u64, D>,
}

impl<M, D: DataSource<u64> + Clone> Context<M, D> {
    fn new(machine: M, sources: D) -> Self {
        Context { machine, context: Snapshot2Context::new(sources.clone()), sources }
    }
}

impl<M: SupportMachine<REG = u64, MEM: Functions>, D: DataSource<u64> + Clone> Host for Context<M, D> {
    type Machine = M;

    fn machine(&mut self) -> &mut M {
        &mut self.machine
    }
    fn load_data(&self, id: u64, offset: u64, length: u64) -> Answer<(Vec<u8>, u64)> {
        named(self.context.load_data(&id, offset, length).map(|(data, full)| (data.into(), full)))
    }
    fn store_bytes(&mut self, addr: u64, id: u64, offset: u64, length: u64, size_addr: u64) -> Answer<(u64, u64)> {
        named(self.context.store_bytes(&mut self.machine, addr, &id, offset, length, size_addr))
    }
    fn track_pages(&mut self, start: u64, length: u64, id: u64, offset: u64) -> Answer<()> {
        named(self.context.track_pages(&mut self.machine, start, length, &id, offset))
    }
    fn untrack_pages(&mut self, start: u64, length: u64) -> Answer<()> {
        named(self.context.untrack_pages(&mut self.machine, start, length))
    }
    fn mark_program(&mut self, metadata: &ProgramMetadata, id: u64, offset: u64) -> Answer<()> {
        named(self.context.mark_program(&mut self.machine, metadata, &id, offset))
    }
    fn make_snapshot(&mut self) -> Answer<(Vec<u8>, Vec<u8>)> {
        named(self.context.make_snapshot(&mut self.machine).map(|snapshot| encode(&snapshot)))
    }
    fn resume(&mut self, files: &(Vec<u8>, Vec<u8>)) -> Answer<()> {
        let snapshot = decode(&files.0, &files.1).ok_or("BadRecordFile")?;
        named(self.context.resume(&mut self.machine, &snapshot))
    }
    fn reset(&mut self, max_cycles: u64) {
        self.machine.reset(max_cycles);
        self.context = Snapshot2Context::new(self.sources.clone());
    }
}

/// Pages tracked by this crate's machine itself.
struct Own {
    machine: Machine,
    sources: Sources,
    snapshot: Snapshot,
}

impl Own {
    fn new(machine: Machine, sources: Sources) -> Own {
        let snapshot = Snapshot::for_pages(Machine::memory(&machine).memory_pages());
        Own { machine, sources, snapshot }
    }
}

impl Host for Own {
    type Machine = Machine;

    fn machine(&mut self) -> &mut Machine {
        &mut self.machine
    }
    fn load_data(&self, id: u64, offset: u64, length: u64) -> Answer<(Vec<u8>, u64)> {
        named(Sources::load_data(&self.sources, id, offset, length).map(|(data, full)| (data.to_vec(), full)))
    }
    fn store_bytes(&mut self, addr: u64, id: u64, offset: u64, length: u64, size_addr: u64) -> Answer<(u64, u64)> {
        named(self.machine.context_store_bytes(&self.sources, addr, id, offset, length, size_addr))
    }
    fn track_pages(&mut self, start: u64, length: u64, id: u64, offset: u64) -> Answer<()> {
        named(self.machine.track_pages(start, length, id, offset))
    }
    fn untrack_pages(&mut self, start: u64, length: u64) -> Answer<()> {
        named(self.machine.untrack_pages(start, length))
    }
    fn mark_program(&mut self, metadata: &ProgramMetadata, id: u64, offset: u64) -> Answer<()> {
        let actions: Vec<latchpebble::LoadingAction> = metadata
            .actions
            .iter()
            .cloned()
            .map(|LoadingAction { addr, size, flags, source, offset_from_addr }| latchpebble::LoadingAction {
                addr,
                size,
                flags,
                source,
                offset_from_addr,
            })
            .collect();
        named(self.machine.mark_program(&actions, id, offset))
    }
    fn make_snapshot(&mut self) -> Answer<(Vec<u8>, Vec<u8>)> {
        named(self.machine.make_snapshot(&mut self.snapshot))?;
        Ok((self.snapshot.records().to_vec(), self.snapshot.pages().to_vec()))
    }
    fn resume(&mut self, files: &(Vec<u8>, Vec<u8>)) -> Answer<()> {
        named(self.machine.resume(&self.sources, &Snapshot::from_files(&files.0[..], &files.1[..])))
    }
    fn reset(&mut self, max_cycles: u64) {
        self.machine.reset(max_cycles);
    }
}

/// So many random calls on a host, snapshots and resumes among them.
fn host_calls<H: Host>(host: &mut H, seeded: &mut Seeded, calls: usize, all: &mut Transcript) {
    let size = host.machine().memory().memory_size() as u64;
    let mut files = vec![];
    for _ in 0..calls {
        let (addr, length, value) = (tracked_address(seeded, size), length(seeded), seeded.word());
        let (id, longest) = seeded.one_of(&[(1, 3 * 4_096), (7, 10_000), (7, 10_000), (u64::MAX, 10), (2, 0), (3, 5)]);
        let offset = seeded.one_of(&[0, 0, PAGE, value % (longest + 2), value % (1 << 40)]);
        match seeded.below(28) {
            0..=4 => {
                let place = address(seeded, size);
                all.note("store_bytes", host.store_bytes(addr, id, offset, length, place));
            }
            5 | 6 => all.note("track_pages", host.track_pages(addr, length, id, offset)),
            7 => all.note("untrack_pages", host.untrack_pages(address(seeded, size), length)),
            8 => {
                let metadata = program(seeded, size);
                all.note("mark_program", host.mark_program(&metadata, id, offset));
            }
            9 => all.note("load_data", host.load_data(id, offset, length).map(|(data, full)| (hash(&data), full))),
            10 | 11 => {
                let made = host.make_snapshot();
                all.note("make_snapshot", made.as_ref().map(|(records, pages)| (records, hash(pages))));
                files.extend(made);
            }
            12 => {
                if let Some(files) = files.last() {
                    all.note("resume", host.resume(files));
                }
            }
            13 => {
                if let Some(files) = files.last() {
                    all.note("resume", host.resume(&changed(files, seeded)));
                }
            }
            14 if value.is_multiple_of(8) => {
                host.reset(value);
                all.say("reset", (host.machine().reset_signal(), host.machine().reset_signal()));
            }
            15 | 16 => machine_call(host.machine(), seeded, value, all),
            _ => one_memory_call(host.machine().memory_mut(), size, seeded, all),
        }
        numbers(host.machine(), all);
    }
    everything(host.machine().memory_mut(), all);
    let last = host.make_snapshot();
    all.note("make_snapshot", last.as_ref().map(|(records, pages)| (records, hash(pages))));
}

/// No start in the last page of the addresses.
fn tracked_address(seeded: &mut Seeded, size: u64) -> u64 {
    address(seeded, size).min(u64::MAX - PAGE)
}

/// Actions with no sum or difference that ckb-vm would overflow.
fn program(seeded: &mut Seeded, size: u64) -> ProgramMetadata {
    let actions = (0..seeded.below(4))
        .map(|_| {
            let (addr, length) = (address(seeded, size).min(1 << 40), length(seeded) % (4 * PAGE));
            let (start, lead) = (seeded.below(9_000), seeded.below(length + 1));
            let end = start + seeded.one_of(&[length, length / 2, 3 * PAGE]);
            let lead = seeded.one_of(&[0, lead]);
            LoadingAction { addr, size: length, flags: 0, source: start..end, offset_from_addr: lead }
        })
        .collect();
    ProgramMetadata { actions, entry: 0 }
}

/// Another file: a word of a record is another, or a file is shorter.
fn changed((records, pages): &(Vec<u8>, Vec<u8>), seeded: &mut Seeded) -> (Vec<u8>, Vec<u8>) {
    let (mut records, mut pages) = (records.clone(), pages.clone());
    let runs = records.len() / RECORD - 9;
    let word = seeded.one_of(&[0, 1, 2, 3, PAGE, 2 * PAGE, 17, 256, 1 << 32, u64::MAX]);
    // mostly in a run, where there is one
    let record = if runs > 0 && seeded.below(4) > 0 { 9 + seeded.below(runs as u64) } else { seeded.below(9) };
    let at = record as usize * RECORD + seeded.below(6) as usize * 8;
    match seeded.below(8) {
        0 => records.truncate(at),
        1 => pages.truncate(pages.len() / 2),
        _ => records[at..at + 8].copy_from_slice(&word.to_le_bytes()),
    }
    (records, pages)
}

fn machine_call<M: SupportMachine<REG = u64>>(machine: &mut M, seeded: &mut Seeded, value: u64, all: &mut Transcript) {
    match seeded.below(9) {
        0 => machine.update_pc(value),
        1 => machine.commit_pc(),
        2 => machine.set_register(seeded.below(32) as usize, value),
        3 => machine.set_cycles(value),
        4 => machine.set_max_cycles(value),
        5 => machine.set_running(value.is_multiple_of(2)),
        6 => all.note("add_cycles", machine.add_cycles(seeded.one_of(&[0, 1, value]))),
        7 => all.note("add_cycles_no_checking", machine.add_cycles_no_checking(seeded.one_of(&[0, 1, value]))),
        _ => machine.commit_pc(),
    }
}

fn numbers<M: SupportMachine<REG = u64>>(machine: &mut M, all: &mut Transcript) {
    let cycles = (machine.cycles(), machine.max_cycles());
    let kinds = (machine.version(), machine.isa(), machine.running(), machine.reset_signal());
    all.say("numbers", (*machine.pc(), cycles, kinds, hash_of(machine.registers())));
}

fn hash_of(words: &[u64]) -> u64 {
    hash(&words.iter().flat_map(|word| word.to_le_bytes()).collect::<Vec<_>>())
}

/// ckb-vm's machine and context; this crate's machine in ckb-vm's context; this crate's machine by itself.
type Three = (Context<TheirMachine, Items>, Context<Machine, Sources>, Own);

fn three(pages: u64) -> Three {
    (
        Context::new(their_machine(pages), items()),
        Context::new(our_machine(pages), sources()),
        Own::new(our_machine(pages), sources()),
    )
}

fn all_alike(three: &mut Three, seeded: &mut Seeded, calls: usize) -> Transcript {
    let mut transcripts = [Transcript::default(), Transcript::default(), Transcript::default()];
    let [theirs, mixed, own] = &mut transcripts;
    host_calls(&mut three.0, &mut seeded.clone(), calls, theirs);
    host_calls(&mut three.1, &mut seeded.clone(), calls, mixed);
    host_calls(&mut three.2, seeded, calls, own);
    hold(theirs, mixed);
    hold(theirs, own);
    let [theirs, ..] = transcripts;
    theirs
}

#[test]
fn machines() {
    let (mut answers, mut refused) = (0, 0);
    for (pages, calls) in [(0, 100), (1, 1_000), (4, 6_000), (16, 6_000), (64, 2_000)] {
        for seed in 0..3 {
            let theirs = all_alike(&mut three(pages), &mut Seeded(seed << 32 | pages), calls);
            answers += theirs.answers.len();
            refused += theirs.refused;
        }
    }
    both_kinds(answers, refused);
}

/// Each machine is stopped, and fresh ones are resumed from the files of another: all go on alike.
#[test]
fn handed_over_crosswise() {
    for seed in 0..20 {
        let seeded = &mut Seeded(1_000 + seed);
        let mut now = three(12);
        for _ in 0..4 {
            all_alike(&mut now, seeded, 300);
            let files = [now.0.make_snapshot(), now.1.make_snapshot(), now.2.make_snapshot()].map(Result::unwrap);
            assert_eq!(files[0], files[1]);
            assert_eq!(files[0], files[2]);
            let mut next = three(12);
            // a resume is asked of a fresh machine alone, and may still be refused where the one before it was not sound
            let answers = [next.0.resume(&files[1]), next.1.resume(&files[2]), next.2.resume(&files[0])];
            assert_eq!(answers[0], answers[1]);
            assert_eq!(answers[0], answers[2]);
            now = next;
        }
        all_alike(&mut now, seeded, 300);
    }
}

/// A snapshot as ckb-vm's own value, without a file in between: made of this crate's machine, resumed on ckb-vm's, and
/// the other way round.
#[test]
fn snapshots_as_values() {
    let (mut theirs, mut ours, _) = three(8);
    for host in [&mut theirs as &mut dyn Stored, &mut ours] {
        host.store();
    }
    let of_theirs: Snapshot2<u64> = theirs.context.make_snapshot(&mut theirs.machine).unwrap();
    let of_ours: Snapshot2<u64> = ours.context.make_snapshot(&mut ours.machine).unwrap();
    assert_eq!(of_theirs.pages_from_source, [(2 * PAGE, 0, 7, 3_996, PAGE)]);
    let (mut their_second, mut our_second, _) = three(8);
    their_second.context.resume(&mut their_second.machine, &of_ours).unwrap();
    our_second.context.resume(&mut our_second.machine, &of_theirs).unwrap();
    let (mut left, mut right) = (Transcript::default(), Transcript::default());
    everything(their_second.machine.memory_mut(), &mut left);
    everything(CoreMachine::memory_mut(&mut our_second.machine), &mut right);
    hold(&left, &right);
    assert_eq!(their_second.make_snapshot(), theirs.make_snapshot());
    assert_eq!(our_second.make_snapshot(), theirs.make_snapshot());
}

trait Stored {
    fn store(&mut self);
}

impl<H: Host> Stored for H {
    fn store(&mut self) {
        assert_eq!(self.store_bytes(PAGE + 100, 7, 0, 10_000, 8), Ok((10_000, 10_000)));
        self.machine().memory_mut().store8(&(3 * PAGE), &1).unwrap();
        self.machine().set_register(5, 55);
        self.machine().memory_mut().set_lr(&6);
    }
}

// ---- programs

/// Instructions over any machine of ckb-vm's trait.
struct Over<'a, M>(&'a mut M);

impl<M: SupportMachine<REG = u64>> Core for Over<'_, M> {
    type Refusal = Error;

    fn pc(&self) -> u64 {
        *self.0.pc()
    }
    fn set_pc(&mut self, pc: u64) {
        self.0.update_pc(pc);
        self.0.commit_pc();
    }
    fn register(&self, i: usize) -> u64 {
        self.0.registers()[i]
    }
    fn set_register(&mut self, i: usize, value: u64) {
        self.0.set_register(i, value);
    }
    fn cycles(&self) -> u64 {
        self.0.cycles()
    }
    fn set_cycles(&mut self, cycles: u64) {
        self.0.set_cycles(cycles);
    }
    fn max_cycles(&self) -> u64 {
        self.0.max_cycles()
    }
    fn fetch(&mut self, addr: u64) -> Result<u32, Error> {
        self.0.memory_mut().execute_load32(addr)
    }
    fn load64(&mut self, addr: u64) -> Result<u64, Error> {
        self.0.memory_mut().load64(&addr)
    }
    fn store64(&mut self, addr: u64, value: u64) -> Result<(), Error> {
        self.0.memory_mut().store64(&addr, &value)
    }
}

const PROGRAM: &[u8] = include_bytes!("../../example/buoyancy.bin");
const READINGS: &str = include_str!("../../example/readings.txt");
const CODE: u64 = 0x1000;
const DATA: u64 = 0x3064;
const SUM: u64 = 0xf000;
const SIZE_WORD: u64 = 0xfff8;

fn readings() -> Vec<u64> {
    READINGS.lines().map(|line| line.parse().unwrap()).collect()
}

fn loaded() -> ProgramMetadata {
    let (size, flags) = (PAGE, FLAG_EXECUTABLE | FLAG_FREEZED);
    let action = LoadingAction { addr: CODE, size, flags, source: 0..PAGE, offset_from_addr: 0 };
    ProgramMetadata { actions: vec![action], entry: CODE }
}

/// The example's program and readings as items 1 and 7.
fn example_items() -> Items {
    Items(vec![(1, PROGRAM.to_vec()), (7, readings().iter().flat_map(|x| x.to_le_bytes()).collect())])
}

fn example_three() -> Three {
    let items = example_items();
    let mut sources = Sources::new();
    items.0.iter().for_each(|(id, item)| sources.add(*id, item));
    (
        Context::new(their_machine(16), items),
        Context::new(our_machine(16), sources.clone()),
        Own::new(our_machine(16), sources),
    )
}

fn start<H: Host>(host: &mut H) {
    host.machine().load_binary(&PROGRAM.to_vec().into(), &loaded(), true).unwrap();
    host.mark_program(&loaded(), 1, 0).unwrap();
    host.store_bytes(DATA, 7, 0, u64::MAX, SIZE_WORD).unwrap();
    let count = host.machine().memory_mut().load64(&SIZE_WORD).unwrap() / 8;
    for (register, value) in [(A0, DATA), (A0 + 1, count), (A0 + 2, SUM)] {
        host.machine().set_register(register, value);
    }
}

/// Runs for so many cycles: whether it is done.
fn go_on<H: Host>(host: &mut H, cycles: u64) -> bool {
    let machine = host.machine();
    machine.set_max_cycles(machine.cycles() + cycles);
    match interpreter::run(&mut Over(machine)) {
        End::Spent => false,
        End::Ecall => true,
        other => panic!("{other:?}"),
    }
}

#[test]
fn the_example_program() {
    let sum: u64 = readings().iter().map(|x| x - (x >> 13)).sum();
    for cycles in [u64::from(u32::MAX), 5_000, 1_234, 400] {
        let mut now = example_three();
        start(&mut now.0);
        start(&mut now.1);
        start(&mut now.2);
        let mut stops = 0;
        loop {
            let ends = [go_on(&mut now.0, cycles), go_on(&mut now.1, cycles), go_on(&mut now.2, cycles)];
            assert_eq!(ends, [ends[0]; 3]);
            if ends[0] {
                break;
            }
            stops += 1;
            let files = [now.0.make_snapshot(), now.1.make_snapshot(), now.2.make_snapshot()].map(Result::unwrap);
            assert_eq!(files[0], files[1]);
            assert_eq!(files[0], files[2]);
            // the program's page goes out as a source run
            assert_eq!(files[0].0[9 * RECORD..][..16], [3u64.to_le_bytes(), CODE.to_le_bytes()].concat());
            let mut next = example_three();
            next.0.resume(&files[2]).unwrap();
            next.1.resume(&files[0]).unwrap();
            next.2.resume(&files[1]).unwrap();
            now = next;
        }
        assert_eq!(stops, (9 * readings().len() as u64 + 2) / cycles);
        let sums = [
            now.0.machine().memory_mut().load64(&SUM).unwrap(),
            Memory::load64(CoreMachine::memory_mut(now.1.machine()), &SUM).unwrap(),
            Memory::load64(CoreMachine::memory_mut(now.2.machine()), &SUM).unwrap(),
        ];
        assert_eq!(sums, [sum; 3]);
    }
}

fn arguments(seeded: &mut Seeded) -> Vec<Bytes> {
    let count = seeded.one_of(&[0, 0, 1, 2, 5, 40]);
    (0..count)
        .map(|_| {
            let length = seeded.below(200) as usize;
            // no zero byte in an argument
            seeded.bytes(length).into_iter().map(|byte| byte | 1).collect::<Vec<_>>().into()
        })
        .collect()
}

/// ckb-vm's default methods: a program with several actions, and a stack with arguments, which are then read back.
fn set_up<M: SupportMachine<REG = u64>>(machine: &mut M, seeded: &mut Seeded, all: &mut Transcript) {
    let size = machine.memory().memory_size() as u64;
    let bytes: Bytes = seeded.bytes(9_000).into();
    let actions = (0..seeded.below(4))
        .map(|_| {
            let (start, pages) = (seeded.below(4_000), seeded.below(3) + 1);
            let end = start + seeded.below(5_000);
            let (lead, addr) = (seeded.below(pages * PAGE), seeded.below(size / PAGE + 1) * PAGE);
            let addr = seeded.one_of(&[addr, addr, addr, addr + 1]);
            let flags = seeded.one_of(&[FLAG_EXECUTABLE | FLAG_FREEZED, FLAG_FREEZED, 0]);
            LoadingAction { addr, size: pages * PAGE, flags, source: start..end, offset_from_addr: lead }
        })
        .collect();
    let metadata = ProgramMetadata { actions, entry: seeded.word() };
    all.note("load_binary", machine.load_binary(&bytes, &metadata, seeded.below(2) == 0));
    let arguments = arguments(seeded);
    let stack = seeded.below(size / 2);
    let count = arguments.len() as u64;
    let start = size - stack;
    all.note("initialize_stack", machine.initialize_stack(arguments.into_iter().map(Ok), start, stack));
    let place = machine.registers()[SP];
    all.say("sp", place);
    // version 1 and later have words of 64 bits there
    if count > 0 && machine.version() > 0 {
        let read = FlattenedArgsReader::new(machine.memory_mut(), count, place.wrapping_add(8));
        // the reader does not go on after an error: it would answer it for ever
        let read = read.take(count as usize);
        all.say("arguments", read.map(|argument| named(argument.map(|bytes| hash(&bytes)))).collect::<Vec<_>>());
    }
    numbers(machine, all);
    everything(machine.memory_mut(), all);
}

#[test]
fn programs_and_stacks() {
    let (mut answers, mut refused) = (0, 0);
    for seed in 0..300 {
        for version in 0..3 {
            let seeded = Seeded(seed);
            let (mut theirs, mut ours) = (Transcript::default(), Transcript::default());
            set_up(&mut TheirMachine::new_with_memory(ISA, version, 0, 16 * 4_096), &mut seeded.clone(), &mut theirs);
            set_up(&mut Machine::new_with_memory(ISA, version, 0, 16 * 4_096), &mut seeded.clone(), &mut ours);
            hold(&theirs, &ours);
            let of_the_methods =
                |answer: &&String| ["load_binary", "initialize_stack"].iter().any(|m| answer.starts_with(m));
            answers += theirs.answers.iter().filter(of_the_methods).count();
            refused += theirs.refused;
        }
    }
    both_kinds(answers, refused);
}

/// A system call that reads a number and stores it elsewhere.
struct Copying;

const COPY: u64 = 2_000;

impl<M: SupportMachine<REG = u64>> Syscalls<M> for Copying {
    fn initialize(&mut self, machine: &mut M) -> Result<(), Error> {
        machine.memory_mut().store64(&8, &88)
    }
    fn ecall(&mut self, machine: &mut M) -> Result<bool, Error> {
        if machine.registers()[A7] != COPY {
            return Ok(false);
        }
        let (from, to) = (machine.registers()[A0], machine.registers()[A0 + 1]);
        let value = machine.memory_mut().load64(&from)?;
        machine.memory_mut().store64(&to, &value)?;
        machine.add_cycles_no_checking(500)?;
        Ok(true)
    }
}

/// ckb-vm's own machine around a core: a program loaded with arguments, system calls, the end.
fn inside<M: SupportMachine<REG = u64> + 'static>(core: M, all: &mut Transcript) -> DefaultMachine<M> {
    let mut machine = DefaultMachineBuilder::new(core).syscall(Box::new(Copying)).build();
    let arguments = ["mass", "buoyancy"].map(|word| Ok(word.as_bytes().to_vec().into()));
    let bytes: Bytes = PROGRAM.to_vec().into();
    all.note("load_program", machine.load_program_with_metadata(&bytes, &loaded(), arguments.into_iter()));
    machine.set_running(true);
    for (code, from, to) in [(COPY, CODE, 64), (COPY, 8, CODE), (COPY, 8, 72), (COPY, 8, 80), (3, 0, 0), (93, 7, 0)] {
        machine.set_register(A7, code);
        machine.set_register(A0, from);
        machine.set_register(A0 + 1, to);
        all.note("ecall", InstructionMachine::ecall(&mut machine));
        all.note("ebreak", InstructionMachine::ebreak(&mut machine));
        all.say("ended", (machine.running(), machine.exit_code(), machine.cycles()));
    }
    all.say("shown", machine.to_string());
    numbers(&mut machine, all);
    everything(machine.memory_mut(), all);
    machine.reset(9);
    numbers(&mut machine, all);
    everything(machine.memory_mut(), all);
    machine
}

#[test]
fn default_machines() {
    let (mut theirs, mut ours) = (Transcript::default(), Transcript::default());
    inside(TheirMachine::new_with_memory(ISA, VERSION, 1_200, 16 * 4_096), &mut theirs);
    let machine = inside(Machine::new_with_memory(ISA, VERSION, 1_200, 16 * 4_096), &mut ours);
    hold(&theirs, &ours);
    assert_eq!(machine.take_inner().max_cycles(), 9);
    assert!(ours.answers.iter().any(|answer| answer == "ecall: CyclesExceeded"));
    assert!(ours.answers.iter().any(|answer| answer == "ecall: MemWriteOnExecutablePage"));
    assert!(ours.answers.iter().any(|answer| answer == "ecall: InvalidEcall(3)"));
    assert!(ours.answers.iter().any(|answer| answer == "ended: (false, 7, 1500)"));
}

/// The pending pc outlasts a reset, as ckb-vm's does; this crate's own records do not.
#[test]
fn resets() {
    fn pending<M: SupportMachine<REG = u64>>(machine: &mut M) -> (u64, u64, bool, bool) {
        machine.set_running(true);
        machine.update_pc(44);
        machine.reset(3);
        let before = *machine.pc();
        machine.commit_pc();
        (before, *machine.pc(), machine.running(), machine.reset_signal())
    }
    assert_eq!(pending(&mut their_machine(4)), (0, 44, true, true));
    assert_eq!(pending(&mut our_machine(4)), (0, 44, true, true));
    let mut machine = our_machine(4);
    machine.track_pages(0, PAGE, 1, 0).unwrap();
    machine.reset(3);
    assert_eq!(machine.page_record(0), Ok(None));
}
