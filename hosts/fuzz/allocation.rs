//! An allocator that sees a write past either end of an allocation: the bytes there are looked at when it is freed.

use std::alloc::{GlobalAlloc, Layout, System};
use std::sync::atomic::{AtomicBool, Ordering};

/// The bytes past each end that are looked at, at the least.
const MARGIN: usize = 32;
const MARK: u8 = 0xd7;

pub struct Bounded;

static WRITTEN: AtomicBool = AtomicBool::new(false);

/// What was written past an end, since the start.
pub fn written_outside() -> Option<&'static str> {
    WRITTEN.load(Ordering::Relaxed).then_some("a byte was written past an end of an allocation")
}

/// The layout with both margins, and the bytes before the allocation's own.
fn wide(layout: Layout) -> Option<(Layout, usize)> {
    let before = layout.align().max(MARGIN);
    let size = layout.size().checked_add(before)?.checked_add(MARGIN)?;
    Some((Layout::from_size_align(size, layout.align()).ok()?, before))
}

unsafe impl GlobalAlloc for Bounded {
    unsafe fn alloc(&self, layout: Layout) -> *mut u8 {
        let Some((all, before)) = wide(layout) else { return std::ptr::null_mut() };
        // the margins are inside `all`
        unsafe {
            let start = System.alloc(all);
            if start.is_null() {
                return start;
            }
            start.write_bytes(MARK, before);
            start.add(before + layout.size()).write_bytes(MARK, MARGIN);
            start.add(before)
        }
    }

    unsafe fn dealloc(&self, own: *mut u8, layout: Layout) {
        let (all, before) = wide(layout).expect("as it was allocated");
        // it was allocated above, with its margins
        unsafe {
            let start = own.sub(before);
            let margin = |from: *mut u8, count| std::slice::from_raw_parts(from, count).iter().all(|b| *b == MARK);
            if !margin(start, before) || !margin(own.add(layout.size()), MARGIN) {
                WRITTEN.store(true, Ordering::Relaxed);
            }
            System.dealloc(start, all)
        }
    }
}
