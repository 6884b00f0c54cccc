//! The archive of crate `host`: its C functions, and safe calls of them over slices.
//!
//! A slice goes over as pointer and length, and a memory as two numbers: its size before the other numbers, its
//! slots in use after them. (Side by side, or in a struct, a caller copies both by one load, which waits for the
//! store of the slots that the call before handed back.)
//! A store hands back the slots then in use, on a refusal too: it may have taken some. A machine goes over whole, by
//! value, and comes back whole. tools/header holds these declarations, and what each call here hands over, to the crate
//! and to the compiled archive.

/// What a memory keeps by value, beside the storage that is lent.
#[repr(C)]
#[derive(Clone, Copy, PartialEq)]
pub struct Memory {
    pub size: u64,
    pub used: u64,
    pub reservation: u64,
}

pub const REGISTERS: usize = 32;

/// What a machine keeps by value: its own numbers, and its memory's.
#[repr(C)]
#[derive(Clone, Copy)]
pub struct Machine {
    pub registers: [u64; REGISTERS],
    pub pc: u64,
    pub next_pc: u64,
    pub version: u32,
    pub cycles: u64,
    pub max_cycles: u64,
    pub memory: Memory,
}

#[repr(C)]
pub struct MachineAnswer {
    pub number: u32,
    pub machine: Machine,
}

/// The answer of a call that may take slots.
#[repr(C)]
pub struct Stored {
    pub number: u32,
    pub used: u64,
}

#[repr(C)]
#[derive(PartialEq)]
pub struct Fresh {
    pub number: u32,
    pub memory: Memory,
}

/// The answer of a call that gives one value, 0 on a refusal.
#[repr(C)]
pub struct Value {
    pub number: u32,
    pub value: u64,
}

#[repr(C)]
pub struct Indices {
    pub number: u32,
    pub first: u64,
    pub last: u64,
}

/// Where the data of an item lies in the source bytes: its start, its bytes, and the full length that remains.
#[repr(C)]
pub struct Found {
    pub number: u32,
    pub start: u64,
    pub count: u64,
    pub full: u64,
}

/// The answer of a context store: the slots in use, the bytes stored, and the full length.
#[repr(C)]
pub struct ContextStored {
    pub number: u32,
    pub used: u64,
    pub stored: u64,
    pub full: u64,
}

/// What is tracked of a page: nothing where `tracked` is 0.
#[repr(C)]
pub struct Recorded {
    pub number: u32,
    pub tracked: u32,
    pub id: u64,
    pub offset: u64,
    pub flag: u32,
}

/// The answer of a snapshot: the records and the pages that it wrote.
#[repr(C)]
pub struct Made {
    pub number: u32,
    pub records: u64,
    pub pages: u64,
}

/// The storage that a call on a memory is lent: a slot number and a flag for each page, and the slots.
pub struct Lent<'a> {
    pub slots: &'a mut [u16],
    pub flags: &'a mut [u8],
    pub area: &'a mut [u8],
}

impl Lent<'_> {
    fn seen(&self) -> Seen<'_> {
        Seen { slots: self.slots, flags: self.flags, area: self.area }
    }
}

/// The same storage, lent to a call that only looks at it.
#[derive(Clone, Copy)]
pub struct Seen<'a> {
    pub slots: &'a [u16],
    pub flags: &'a [u8],
    pub area: &'a [u8],
}

/// The storage that a call of tracking is lent: a memory's, and the words of each page's record.
pub struct Tracked<'a> {
    pub lent: Lent<'a>,
    pub records: &'a mut [u64],
}

/// The functions that are lent nothing, `latchpebble_..`.
macro_rules! functions {
    ($(fn $call:ident($($name:ident: $word:ty),*) -> $answer:ty;)*) => {
        #[link(name = "host", kind = "static")]
        unsafe extern "C" {
            $(#[link_name = concat!("latchpebble_", stringify!($call))]
            pub safe fn $call($($name: $word),*) -> $answer;)*
        }
    };
}

functions! {
    fn round_page_up(x: u64) -> u64;
    fn round_page_down(x: u64) -> u64;
    fn get_page_indices(address: u64, size: u64) -> Indices;
    fn machine_register(machine: Machine, i: u64) -> Value;
    fn machine_set_register(machine: Machine, i: u64, value: u64) -> MachineAnswer;
    fn machine_pc(machine: Machine) -> u64;
    fn machine_update_pc(machine: Machine, pc: u64) -> Machine;
    fn machine_commit_pc(machine: Machine) -> Machine;
    fn machine_version(machine: Machine) -> u32;
    fn machine_cycles(machine: Machine) -> u64;
    fn machine_set_cycles(machine: Machine, cycles: u64) -> Machine;
    fn machine_max_cycles(machine: Machine) -> u64;
    fn machine_set_max_cycles(machine: Machine, cycles: u64) -> Machine;
}

/// The functions of both memories, `latchpebble_sparse_..` and `latchpebble_wxorx_..`.
macro_rules! memories {
    ($(fn $call:ident($($word:ty),*) -> $answer:ty;)*) => {
        /// The functions of one of the two memories.
        pub struct Calls {
            $($call: unsafe extern "C" fn($($word),*) -> $answer,)*
        }

        pub static SPARSE: Calls = {
            #[link(name = "host", kind = "static")]
            unsafe extern "C" {
                $(#[link_name = concat!("latchpebble_sparse_", stringify!($call))]
                fn $call($(_: $word),*) -> $answer;)*
            }
            Calls { $($call),* }
        };

        pub static WXORX: Calls = {
            #[link(name = "host", kind = "static")]
            unsafe extern "C" {
                $(#[link_name = concat!("latchpebble_wxorx_", stringify!($call))]
                fn $call($(_: $word),*) -> $answer;)*
            }
            Calls { $($call),* }
        };
    };
}

memories! {
    fn fresh(*mut u16, usize, *mut u8, usize, *mut u8, usize, u64) -> Fresh;
    fn init_pages(*mut u16, usize, *mut u8, usize, *mut u8, usize, *const u8, usize, u64, u64, u64, u8, u64, u64) -> Stored;
    fn fetch_flag(*const u16, usize, *const u8, usize, *const u8, usize, u64, u64, u64) -> Value;
    fn set_flag(*const u16, usize, *mut u8, usize, *const u8, usize, u64, u64, u8, u64) -> u32;
    fn clear_flag(*const u16, usize, *mut u8, usize, *const u8, usize, u64, u64, u8, u64) -> u32;
    fn memory_size(Memory) -> u64;
    fn memory_pages(Memory) -> u64;
    fn store_byte(*mut u16, usize, *mut u8, usize, *mut u8, usize, u64, u64, u64, u8, u64) -> Stored;
    fn store_bytes(*mut u16, usize, *mut u8, usize, *mut u8, usize, *const u8, usize, u64, u64, u64) -> Stored;
    fn load_bytes(*const u16, usize, *const u8, usize, *const u8, usize, *mut u8, usize, u64, u64, u64, u64) -> u32;
    fn load_c_string(*const u16, usize, *const u8, usize, *const u8, usize, *mut u8, usize, u64, u64, u64) -> Value;
    fn execute_load16(*const u16, usize, *const u8, usize, *const u8, usize, u64, u64, u64) -> Value;
    fn execute_load32(*const u16, usize, *const u8, usize, *const u8, usize, u64, u64, u64) -> Value;
    fn load8(*const u16, usize, *const u8, usize, *const u8, usize, u64, u64, u64) -> Value;
    fn load16(*const u16, usize, *const u8, usize, *const u8, usize, u64, u64, u64) -> Value;
    fn load32(*const u16, usize, *const u8, usize, *const u8, usize, u64, u64, u64) -> Value;
    fn load64(*const u16, usize, *const u8, usize, *const u8, usize, u64, u64, u64) -> Value;
    fn store8(*mut u16, usize, *mut u8, usize, *mut u8, usize, u64, u64, u64, u64) -> Stored;
    fn store16(*mut u16, usize, *mut u8, usize, *mut u8, usize, u64, u64, u64, u64) -> Stored;
    fn store32(*mut u16, usize, *mut u8, usize, *mut u8, usize, u64, u64, u64, u64) -> Stored;
    fn store64(*mut u16, usize, *mut u8, usize, *mut u8, usize, u64, u64, u64, u64) -> Stored;
    fn lr(Memory) -> u64;
    fn set_lr(Memory, u64) -> Memory;
}

/// A function that is handed the storage, with the words that follow it.
macro_rules! hand {
    ($storage:ident, $pointer:ident, $function:expr, $lent:expr $(, $word:expr)*) => {{
        let $storage { slots, flags, area } = $lent;
        // pointers and lengths are those of slices, and of no two that overlap where one is written to
        unsafe {
            $function(
                slots.$pointer(),
                slots.len(),
                flags.$pointer(),
                flags.len(),
                area.$pointer(),
                area.len()
                $(, $word)*
            )
        }
    }};
}

/// A function that is lent the storage, with the words that follow it.
macro_rules! lend {
    ($function:expr, $lent:expr $(, $word:expr)*) => { hand!(Lent, as_mut_ptr, $function, $lent $(, $word)*) };
}

/// A function that only looks at the storage, with the words that follow it.
macro_rules! show {
    ($function:expr, $seen:expr $(, $word:expr)*) => { hand!(Seen, as_ptr, $function, $seen $(, $word)*) };
}

macro_rules! loads {
    ($($call:ident)*) => {
        $(pub fn $call(&self, lent: Lent, memory: Memory, address: u64) -> Value {
            seen::$call(self, lent.seen(), memory, address)
        })*
    };
}

macro_rules! stores {
    ($($call:ident)*) => {
        $(pub fn $call(&self, lent: Lent, memory: Memory, address: u64, value: u64) -> Stored {
            lend!((self.$call), lent, memory.size, address, value, memory.used)
        })*
    };
}

impl Calls {
    pub fn fresh(&self, lent: Lent, size: u64) -> Fresh {
        lend!((self.fresh), lent, size)
    }

    #[allow(clippy::too_many_arguments)]
    pub fn init_pages(
        &self,
        lent: Lent,
        source: &[u8],
        memory: Memory,
        address: u64,
        size: u64,
        flag: u8,
        lead: u64,
    ) -> Stored {
        lend!(
            (self.init_pages),
            lent,
            source.as_ptr(),
            source.len(),
            memory.size,
            address,
            size,
            flag,
            lead,
            memory.used
        )
    }

    pub fn fetch_flag(&self, lent: Lent, memory: Memory, page: u64) -> Value {
        seen::fetch_flag(self, lent.seen(), memory, page)
    }

    pub fn set_flag(&self, lent: Lent, memory: Memory, page: u64, flag: u8) -> u32 {
        lend!((self.set_flag), lent, memory.size, page, flag, memory.used)
    }

    pub fn clear_flag(&self, lent: Lent, memory: Memory, page: u64, flag: u8) -> u32 {
        lend!((self.clear_flag), lent, memory.size, page, flag, memory.used)
    }

    pub fn memory_size(&self, memory: Memory) -> u64 {
        // no pointer goes over
        unsafe { (self.memory_size)(memory) }
    }

    pub fn memory_pages(&self, memory: Memory) -> u64 {
        unsafe { (self.memory_pages)(memory) }
    }

    pub fn store_byte(&self, lent: Lent, memory: Memory, address: u64, size: u64, value: u8) -> Stored {
        lend!((self.store_byte), lent, memory.size, address, size, value, memory.used)
    }

    pub fn store_bytes(&self, lent: Lent, bytes: &[u8], memory: Memory, address: u64) -> Stored {
        lend!((self.store_bytes), lent, bytes.as_ptr(), bytes.len(), memory.size, address, memory.used)
    }

    pub fn load_bytes(&self, lent: Lent, out: &mut [u8], memory: Memory, address: u64, size: u64) -> u32 {
        seen::load_bytes(self, lent.seen(), out, memory, address, size)
    }

    /// The value is the string's length.
    pub fn load_c_string(&self, lent: Lent, out: &mut [u8], memory: Memory, address: u64) -> Value {
        seen::load_c_string(self, lent.seen(), out, memory, address)
    }

    loads!(execute_load16 execute_load32 load8 load16 load32 load64);
    stores!(store8 store16 store32 store64);

    pub fn lr(&self, memory: Memory) -> u64 {
        unsafe { (self.lr)(memory) }
    }

    pub fn set_lr(&self, memory: Memory, value: u64) -> Memory {
        unsafe { (self.set_lr)(memory, value) }
    }
}

// ---- a memory with its records, and sources

/// The sources: bytes, and a directory of numbers in threes: id, start, length.
#[derive(Clone, Copy)]
pub struct Sources<'a> {
    pub directory: &'a [u64],
    pub bytes: &'a [u8],
}

mod lent {
    use super::{ContextStored, Found, Machine, MachineAnswer, Made, Recorded, Stored};

    /// The functions that are lent a memory's storage, with its records or without, or sources, `latchpebble_..`.
    macro_rules! functions {
        ($(fn $call:ident($($word:ty),*) -> $answer:ty;)*) => {
            #[link(name = "host", kind = "static")]
            unsafe extern "C" {
                $(#[link_name = concat!("latchpebble_", stringify!($call))]
                pub fn $call($(_: $word),*) -> $answer;)*
            }
        };
    }

    functions! {
        fn check_permission(*const u16, usize, *const u8, usize, *const u8, usize, u64, u64, u64, u8, u64) -> u32;
        fn set_dirty(*const u16, usize, *mut u8, usize, *const u8, usize, u64, u64, u64, u64) -> u32;
        fn fill_page_data(*mut u16, usize, *mut u8, usize, *mut u8, usize, *const u8, usize, u64, u64, u64, u64, u64) -> Stored;
        fn machine_fresh(*mut u16, usize, *mut u8, usize, *mut u8, usize, *mut u64, usize, u64, u32, u64) -> MachineAnswer;
        fn find_data(*const u64, usize, *const u8, usize, u64, u64, u64) -> Found;
        fn track_pages(*const u16, usize, *mut u8, usize, *const u8, usize, *mut u64, usize, u64, u64, u64, u64, u64, u64) -> u32;
        fn untrack_pages(*const u16, usize, *mut u8, usize, *const u8, usize, *mut u64, usize, u64, u64, u64, u64) -> u32;
        fn context_store_bytes(*mut u16, usize, *mut u8, usize, *mut u8, usize, *mut u64, usize, *const u64, usize, *const u8, usize, u64, u64, u64, u64, u64, u64, u64) -> ContextStored;
        fn mark_program(*const u16, usize, *mut u8, usize, *const u8, usize, *mut u64, usize, *const u64, usize, u64, u64, u64, u64) -> u32;
        fn page_record(*const u16, usize, *const u8, usize, *const u8, usize, *const u64, usize, u64, u64, u64) -> Recorded;
        fn make_snapshot(*const u16, usize, *const u8, usize, *const u8, usize, *const u64, usize, *mut u8, usize, *mut u8, usize, Machine) -> Made;
        fn resume(*mut u16, usize, *mut u8, usize, *mut u8, usize, *mut u64, usize, *const u64, usize, *const u8, usize, *const u8, usize, *const u8, usize, Machine) -> MachineAnswer;
    }
}

pub fn check_permission(lent: Lent, memory: Memory, first: u64, last: u64, flag: u8) -> u32 {
    seen::check_permission(lent.seen(), memory, first, last, flag)
}

pub fn set_dirty(lent: Lent, memory: Memory, first: u64, last: u64) -> u32 {
    lend!(lent::set_dirty, lent, memory.size, first, last, memory.used)
}

pub fn fill_page_data(lent: Lent, source: &[u8], memory: Memory, address: u64, size: u64, lead: u64) -> Stored {
    lend!(lent::fill_page_data, lent, source.as_ptr(), source.len(), memory.size, address, size, lead, memory.used)
}

/// A function that is lent storage and records, with the words that follow them.
macro_rules! lend_tracked {
    ($function:ident, $tracked:expr $(, $word:expr)*) => {{
        let Tracked { lent, records } = $tracked;
        lend!(lent::$function, lent, records.as_mut_ptr(), records.len() $(, $word)*)
    }};
}

pub fn machine_fresh(tracked: Tracked, size: u64, version: u32, maximum: u64) -> MachineAnswer {
    lend_tracked!(machine_fresh, tracked, size, version, maximum)
}

pub fn find_data(sources: Sources, id: u64, offset: u64, size: u64) -> Found {
    let Sources { directory, bytes } = sources;
    // pointers and lengths are those of slices
    unsafe { lent::find_data(directory.as_ptr(), directory.len(), bytes.as_ptr(), bytes.len(), id, offset, size) }
}

pub fn track_pages(tracked: Tracked, memory: Memory, start: u64, size: u64, id: u64, offset: u64) -> u32 {
    lend_tracked!(track_pages, tracked, memory.size, start, size, id, offset, memory.used)
}

pub fn untrack_pages(tracked: Tracked, memory: Memory, start: u64, size: u64) -> u32 {
    lend_tracked!(untrack_pages, tracked, memory.size, start, size, memory.used)
}

/// `place` is where the full length is stored.
#[allow(clippy::too_many_arguments)]
pub fn context_store_bytes(
    tracked: Tracked,
    sources: Sources,
    memory: Memory,
    address: u64,
    id: u64,
    offset: u64,
    size: u64,
    place: u64,
) -> ContextStored {
    let Sources { directory, bytes } = sources;
    lend_tracked!(
        context_store_bytes,
        tracked,
        directory.as_ptr(),
        directory.len(),
        bytes.as_ptr(),
        bytes.len(),
        memory.size,
        address,
        id,
        offset,
        size,
        place,
        memory.used
    )
}

/// The actions are numbers in sixes: address, size, flags, source start, source end, lead.
pub fn mark_program(tracked: Tracked, actions: &[u64], memory: Memory, id: u64, offset: u64) -> u32 {
    lend_tracked!(mark_program, tracked, actions.as_ptr(), actions.len(), memory.size, id, offset, memory.used)
}

pub fn page_record(tracked: Tracked, memory: Memory, page: u64) -> Recorded {
    seen::page_record(tracked.lent.seen(), tracked.records, memory, page)
}

// ---- snapshots

/// A snapshot's record file and page file.
#[derive(Clone, Copy)]
pub struct Files<'a> {
    pub records: &'a [u8],
    pub pages: &'a [u8],
}

/// The two outputs are those of the record file and of the page file.
pub fn make_snapshot(tracked: Tracked, file: &mut [u8], pages: &mut [u8], machine: Machine) -> Made {
    seen::make_snapshot(tracked.lent.seen(), tracked.records, file, pages, machine)
}

pub fn resume(tracked: Tracked, sources: Sources, files: Files, machine: Machine) -> MachineAnswer {
    let Sources { directory, bytes } = sources;
    let Files { records, pages } = files;
    lend_tracked!(
        resume,
        tracked,
        directory.as_ptr(),
        directory.len(),
        bytes.as_ptr(),
        bytes.len(),
        records.as_ptr(),
        records.len(),
        pages.as_ptr(),
        pages.len(),
        machine
    )
}

// ---- calls that only look

/// The calls that write to nothing but an output, over storage that is shared.
pub mod seen {
    use super::{Calls, Machine, Made, Memory, Recorded, Seen, Value, lent};

    macro_rules! loads {
        ($($call:ident)*) => {
            $(pub fn $call(calls: &Calls, seen: Seen, memory: Memory, address: u64) -> Value {
                show!((calls.$call), seen, memory.size, address, memory.used)
            })*
        };
    }

    pub fn fetch_flag(calls: &Calls, seen: Seen, memory: Memory, page: u64) -> Value {
        show!((calls.fetch_flag), seen, memory.size, page, memory.used)
    }

    pub fn load_bytes(calls: &Calls, seen: Seen, out: &mut [u8], memory: Memory, address: u64, size: u64) -> u32 {
        show!((calls.load_bytes), seen, out.as_mut_ptr(), out.len(), memory.size, address, size, memory.used)
    }

    /// The value is the string's length.
    pub fn load_c_string(calls: &Calls, seen: Seen, out: &mut [u8], memory: Memory, address: u64) -> Value {
        show!((calls.load_c_string), seen, out.as_mut_ptr(), out.len(), memory.size, address, memory.used)
    }

    loads!(execute_load16 execute_load32 load8 load16 load32 load64);

    pub fn check_permission(seen: Seen, memory: Memory, first: u64, last: u64, flag: u8) -> u32 {
        show!(lent::check_permission, seen, memory.size, first, last, flag, memory.used)
    }

    pub fn page_record(seen: Seen, records: &[u64], memory: Memory, page: u64) -> Recorded {
        show!(lent::page_record, seen, records.as_ptr(), records.len(), memory.size, page, memory.used)
    }

    /// The two outputs are those of the record file and of the page file.
    pub fn make_snapshot(seen: Seen, records: &[u64], file: &mut [u8], pages: &mut [u8], machine: Machine) -> Made {
        show!(
            lent::make_snapshot,
            seen,
            records.as_ptr(),
            records.len(),
            file.as_mut_ptr(),
            file.len(),
            pages.as_mut_ptr(),
            pages.len(),
            machine
        )
    }
}
