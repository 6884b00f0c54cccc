//! After creation no call allocates, frees or moves a block.
// a global allocator is unsafe to declare
#![allow(unsafe_code)]

use latchpebble::{
    LoadingAction, Machine, RISCV_PAGESIZE, Snapshot, Sources, SparseMemory, WXorXMemory, check_permission,
    fill_page_data, get_page_indices, round_page_down, round_page_up, set_dirty,
};
use std::alloc::{GlobalAlloc, Layout, System};
use std::cell::Cell;
use std::hint::black_box;

const PAGE: u64 = RISCV_PAGESIZE;

struct Counting;

thread_local! {
    // of this thread alone: the test's harness has threads of its own
    static CALLS: Cell<u64> = const { Cell::new(0) };
}

fn count() {
    CALLS.with(|calls| calls.set(calls.get() + 1));
}

unsafe impl GlobalAlloc for Counting {
    unsafe fn alloc(&self, layout: Layout) -> *mut u8 {
        count();
        unsafe { System.alloc(layout) }
    }
    unsafe fn alloc_zeroed(&self, layout: Layout) -> *mut u8 {
        count();
        unsafe { System.alloc_zeroed(layout) }
    }
    unsafe fn realloc(&self, block: *mut u8, layout: Layout, size: usize) -> *mut u8 {
        count();
        unsafe { System.realloc(block, layout, size) }
    }
    unsafe fn dealloc(&self, block: *mut u8, layout: Layout) {
        count();
        unsafe { System.dealloc(block, layout) }
    }
}

#[global_allocator]
static ALLOCATOR: Counting = Counting;

/// How often the allocator is called meanwhile.
fn counted(work: impl FnOnce()) -> u64 {
    let before = CALLS.get();
    work();
    CALLS.get() - before
}

/// All calls of a memory, done and refused.
macro_rules! memory_calls {
    ($memory:expr) => {{
        let memory = $memory;
        let mut out = [0; 64];
        let size = memory.memory_size();
        for addr in [0, PAGE - 1, size - 1, size, u64::MAX] {
            let _ = black_box(memory.store8(addr, 1));
            let _ = black_box(memory.store16(addr, 1));
            let _ = black_box(memory.store32(addr, 1));
            let _ = black_box(memory.store64(addr, 1));
            let _ = black_box(memory.store_byte(addr, 3 * PAGE, 1));
            let _ = black_box(memory.store_bytes(addr, &[1; 5_000]));
            let _ = black_box(memory.load8(addr));
            let _ = black_box(memory.load16(addr));
            let _ = black_box(memory.load32(addr));
            let _ = black_box(memory.load64(addr));
            let _ = black_box(memory.execute_load16(addr));
            let _ = black_box(memory.execute_load32(addr));
            let _ = black_box(memory.load_bytes(addr, &mut out));
            let _ = black_box(memory.load_c_string(addr, &mut out));
            let _ = black_box(memory.init_pages(addr, 2 * PAGE, 0, &[7; 100], 3));
            let _ = black_box(memory.fetch_flag(addr));
            let _ = black_box(memory.set_flag(addr, 8));
            let _ = black_box(memory.clear_flag(addr, 8));
        }
        memory.set_lr(memory.lr() ^ memory.memory_pages());
        let _ = black_box(memory.fresh());
        let _ = black_box(memory.store_byte(0, size, 1));
    }};
}

#[test]
fn calls_do_not_allocate() {
    let mut sparse = SparseMemory::new(16 * PAGE).unwrap();
    let mut wxorx = WXorXMemory::new(16 * PAGE).unwrap();
    let mut few = WXorXMemory::with_slots(16 * PAGE, 2).unwrap();
    let mut sources = Sources::new();
    sources.add(7, &[3; 20_000]);
    let mut machine = Machine::new(1, 1_000, 16 * PAGE).unwrap();
    let mut second = Machine::new(1, 0, 16 * PAGE).unwrap();
    let mut other = Machine::new(2, 0, 16 * PAGE).unwrap();
    let (mut snapshot, mut short) = (Snapshot::for_pages(16), Snapshot::for_pages(1));
    let good = LoadingAction { addr: 8 * PAGE, size: 2 * PAGE, flags: 3, source: 0..8_000, offset_from_addr: 10 };
    let bad = LoadingAction { size: 0, ..good.clone() };
    let actions = [good, bad];

    let calls = counted(|| {
        memory_calls!(&mut sparse);
        memory_calls!(&mut wxorx);
        memory_calls!(&mut few);
        let _ = black_box((check_permission(&sparse, (0, 20), 0), set_dirty(&mut sparse, (0, 20))));
        let _ = black_box(fill_page_data(&mut sparse, 5, 9_000, &[1; 8_000], 4));
        let _ = black_box((round_page_up(5), round_page_down(5), get_page_indices(5, 5)));

        for i in [0, 31, 32] {
            let _ = black_box((machine.set_register(i, 1), machine.register(i)));
        }
        machine.update_pc(machine.registers()[1]);
        machine.commit_pc();
        machine.set_cycles(machine.max_cycles());
        machine.set_max_cycles(machine.cycles() + machine.pc() + u64::from(machine.version()));
        for (addr, id) in [(100, 7), (16 * PAGE - 1, 7), (0, 8)] {
            let _ = black_box(machine.context_store_bytes(&sources, addr, id, 0, 20_000, 8));
            let _ = black_box(sources.load_data(id, 0, 100));
        }
        assert!(machine.mark_program(&actions, 7, 0).is_err());
        let _ = black_box(machine.track_pages(12 * PAGE, 9 * PAGE, 7, 0));
        let _ = black_box(machine.untrack_pages(12 * PAGE, 9 * PAGE));
        let _ = black_box((machine.page_record(1), machine.page_record(16)));
        machine.memory_mut().store64(3 * PAGE, 3).unwrap();
        assert!(machine.make_snapshot(&mut short).is_err());
        machine.make_snapshot(&mut snapshot).unwrap();
        second.resume(&sources, &snapshot).unwrap();
        assert!(other.resume(&sources, &snapshot).is_err());
        assert!(other.resume(&sources, &short).is_err());
        second.fresh(1, 0).unwrap();
        black_box((snapshot.records(), snapshot.pages()));
    });
    assert_eq!(calls, 0);
}

/// The count counts: storage is made at creation.
#[test]
fn creation_allocates() {
    let count = counted(|| {
        black_box(SparseMemory::new(PAGE).unwrap());
    });
    // slot numbers, flags and slots, each made and freed
    assert_eq!(count, 6);
}
