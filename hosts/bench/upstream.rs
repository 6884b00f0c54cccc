//! The calls of the upstream Rust, each a function that is not inlined, for u64 registers. They are a crate of their
//! own, as the archive is: what a program calls does not change their code.

use ckb_vm::elf::ProgramMetadata;
use ckb_vm::machine::{CoreMachine, DefaultCoreMachine, SupportMachine};
use ckb_vm::memory::{self, Memory, sparse::SparseMemory, wxorx::WXorXMemory};
use ckb_vm::snapshot2::{DataSource, Snapshot2, Snapshot2Context};
use ckb_vm::{Bytes, Error};

pub type Sparse = SparseMemory<u64>;
pub type WXorX = WXorXMemory<Sparse>;
pub type Core = DefaultCoreMachine<u64, WXorX>;
pub type Context = Snapshot2Context<u64, Items>;
pub type Answer<T> = Result<T, Error>;

/// A source: the first item with an id decides, and its bytes are handed out without a copy.
pub struct Items(pub &'static [(u64, &'static [u8])]);

impl DataSource<u64> for Items {
    fn load_data(&self, id: &u64, offset: u64, length: u64) -> Option<(Bytes, u64)> {
        let (_, bytes) = self.0.iter().find(|(item, _)| item == id)?;
        let rest = bytes.get(offset as usize..)?;
        let full = rest.len() as u64;
        Some((Bytes::from_static(&rest[..full.min(length) as usize]), full))
    }
}

/// A trait, and for each memory its functions.
macro_rules! memories {
    ($(fn $call:ident($($name:ident: $word:ty),*) -> $answer:ty { $body:expr })*) => {
        /// The calls of a memory.
        pub trait Calls: Memory<REG = u64> + Sized {
            $(fn $call($($name: $word),*) -> $answer;)*
        }
        memories! { for Sparse, WXorX: { $(
            #[inline(never)]
            fn $call($($name: $word),*) -> $answer {
                $body
            }
        )* } }
    };
    (for $($memory:ty),*: $calls:tt) => {
        $(memories! { one $memory: $calls })*
    };
    (one $memory:ty: { $($calls:tt)* }) => {
        impl Calls for $memory {
            $($calls)*
        }
    };
}

memories! {
    fn new_with_memory(size: usize) -> Self { Memory::new_with_memory(size) }
    fn init_pages(
        memory: &mut Self, address: u64, size: u64, flags: u8, source: Option<&'static [u8]>, lead: u64
    ) -> Answer<()> { memory.init_pages(address, size, flags, source.map(Bytes::from_static), lead) }
    fn fetch_flag(memory: &mut Self, page: u64) -> Answer<u8> { memory.fetch_flag(page) }
    fn set_flag(memory: &mut Self, page: u64, flag: u8) -> Answer<()> { memory.set_flag(page, flag) }
    fn clear_flag(memory: &mut Self, page: u64, flag: u8) -> Answer<()> { memory.clear_flag(page, flag) }
    fn memory_size(memory: &Self) -> usize { memory.memory_size() }
    fn memory_pages(memory: &Self) -> usize { memory.memory_pages() }
    fn store_byte(memory: &mut Self, address: u64, size: u64, value: u8) -> Answer<()> {
        memory.store_byte(address, size, value)
    }
    fn store_bytes(memory: &mut Self, address: u64, bytes: &[u8]) -> Answer<()> { memory.store_bytes(address, bytes) }
    fn load_bytes(memory: &mut Self, address: u64, size: u64) -> Answer<Bytes> { memory.load_bytes(address, size) }
    fn execute_load16(memory: &mut Self, address: u64) -> Answer<u16> { memory.execute_load16(address) }
    fn execute_load32(memory: &mut Self, address: u64) -> Answer<u32> { memory.execute_load32(address) }
    fn load8(memory: &mut Self, address: u64) -> Answer<u64> { memory.load8(&address) }
    fn load16(memory: &mut Self, address: u64) -> Answer<u64> { memory.load16(&address) }
    fn load32(memory: &mut Self, address: u64) -> Answer<u64> { memory.load32(&address) }
    fn load64(memory: &mut Self, address: u64) -> Answer<u64> { memory.load64(&address) }
    fn store8(memory: &mut Self, address: u64, value: u64) -> Answer<()> { memory.store8(&address, &value) }
    fn store16(memory: &mut Self, address: u64, value: u64) -> Answer<()> { memory.store16(&address, &value) }
    fn store32(memory: &mut Self, address: u64, value: u64) -> Answer<()> { memory.store32(&address, &value) }
    fn store64(memory: &mut Self, address: u64, value: u64) -> Answer<()> { memory.store64(&address, &value) }
    fn lr(memory: &Self) -> u64 { *memory.lr() }
    fn set_lr(memory: &mut Self, value: u64) -> () { memory.set_lr(&value) }
    fn check_permission(memory: &mut Self, first: u64, last: u64, flag: u8) -> Answer<()> {
        memory::check_permission(memory, &(first, last), flag)
    }
    fn set_dirty(memory: &mut Self, first: u64, last: u64) -> Answer<()> { memory::set_dirty(memory, &(first, last)) }
    fn fill_page_data(memory: &mut Self, address: u64, size: u64, source: &'static [u8], lead: u64) -> Answer<()> {
        memory::fill_page_data(memory, address, size, Some(Bytes::from_static(source)), lead)
    }
    fn load_c_string(memory: &mut Self, address: u64) -> Answer<Bytes> {
        memory::load_c_string_byte_by_byte(memory, &address)
    }
}

macro_rules! functions {
    ($(fn $call:ident($($name:ident: $word:ty),*) -> $answer:ty { $body:expr })*) => {
        $(#[inline(never)]
        pub fn $call($($name: $word),*) -> $answer {
            $body
        })*
    };
}

// rounding and page indices
functions! {
    fn round_page_up(x: u64) -> u64 { memory::round_page_up(x) }
    fn round_page_down(x: u64) -> u64 { memory::round_page_down(x) }
    fn get_page_indices(address: u64, size: u64) -> Answer<(u64, u64)> { memory::get_page_indices(address, size) }
}

// a machine
functions! {
    fn new_machine(version: u32, max_cycles: u64, size: usize, items: Items) -> (Core, Context) {
        (Core::new_with_memory(0, version, max_cycles, size), Context::new(items))
    }
    fn register(core: &Core, i: usize) -> u64 { core.registers()[i] }
    fn set_register(core: &mut Core, i: usize, value: u64) -> () { core.set_register(i, value) }
    fn pc(core: &Core) -> u64 { *core.pc() }
    fn update_pc(core: &mut Core, pc: u64) -> () { core.update_pc(pc) }
    fn commit_pc(core: &mut Core) -> () { core.commit_pc() }
    fn version(core: &Core) -> u32 { core.version() }
    fn cycles(core: &Core) -> u64 { core.cycles() }
    fn set_cycles(core: &mut Core, cycles: u64) -> () { core.set_cycles(cycles) }
    fn max_cycles(core: &Core) -> u64 { core.max_cycles() }
    fn set_max_cycles(core: &mut Core, cycles: u64) -> () { core.set_max_cycles(cycles) }
}

// sources, tracking and snapshots
functions! {
    fn load_data(context: &Context, id: u64, offset: u64, length: u64) -> Answer<(Bytes, u64)> {
        context.load_data(&id, offset, length)
    }
    fn track_pages(
        context: &mut Context, core: &mut Core, start: u64, length: u64, id: u64, offset: u64
    ) -> Answer<()> { context.track_pages(core, start, length, &id, offset) }
    fn untrack_pages(context: &mut Context, core: &mut Core, start: u64, length: u64) -> Answer<()> {
        context.untrack_pages(core, start, length)
    }
    fn context_store_bytes(
        context: &mut Context, core: &mut Core, address: u64, id: u64, offset: u64, length: u64, place: u64
    ) -> Answer<(u64, u64)> { context.store_bytes(core, address, &id, offset, length, place) }
    fn mark_program(
        context: &mut Context, core: &mut Core, metadata: &ProgramMetadata, id: u64, offset: u64
    ) -> Answer<()> { context.mark_program(core, metadata, &id, offset) }
    fn make_snapshot(context: &Context, core: &mut Core) -> Answer<Snapshot2<u64>> { context.make_snapshot(core) }
    fn resume(context: &mut Context, core: &mut Core, snapshot: &Snapshot2<u64>) -> Answer<()> {
        context.resume(core, snapshot)
    }
}
