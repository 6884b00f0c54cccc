//! The calls of the two memories, and of the functions over them.
//!
//! Every page is present, in the slot of its own number. After each case both sides hold the same bytes and flags.

use crate::archive::{self, Lent, SPARSE, Value};
use crate::rounds::{Cases, calls_of};
use crate::sides::{DIRTY, EXECUTABLE, Layer, PAGE, PAGES, Port, Sparse, WXorX, block, held, patterned};
use ckb_vm::Error;
use ckb_vm::memory::Memory;
use std::hint::black_box;
use std::ptr;
use upstream::Calls;

const SIZE: usize = PAGES * PAGE;
const SIZES: [usize; 5] = [1, 8, 64, PAGE, 16 * PAGE];
/// Where the calls store and load; the page that code is loaded from; the pages that are filled; the page of strings.
const PLACE: usize = 8 * PAGE;
const CODE: usize = 100 * PAGE;
const FILLED: usize = 512 * PAGE;
const TEXT: usize = 200 * PAGE;
const FILL: usize = 64 * PAGE;
/// The zeros before and after a source in filled pages.
const LEAD: usize = 100;
const STRINGS: [usize; 3] = [8, 64, 1_000];
/// The pages of a fresh memory, and those of a call that looks at flags or sets them.
const FRESH: [usize; 3] = [4, 64, PAGES];
const RANGES: [usize; 3] = [1, 16, PAGES];

/// Both sides, every page stored to.
fn filled<L: Layer>() -> (&'static mut L::Upstream, &'static mut Port) {
    let (rust, port) = (held(<L::Upstream as Calls>::new_with_memory(SIZE)), Port::new(PAGES));
    let bytes = patterned(SIZE);
    let number = port.store(|lent, memory| L::CALLS.store_bytes(lent, bytes, memory, 0)).number;
    assert!(number == 0 && rust.store_bytes(0, bytes).is_ok(), "a memory was not filled");
    (rust, port)
}

fn same<L: Layer>(rust: &mut L::Upstream, port: &mut Port) {
    for page in 0..PAGES {
        let loaded = rust.load_bytes((page * PAGE) as u64, PAGE as u64);
        let slot = port.slots[page] as usize;
        let bytes = &port.area[slot * PAGE..][..PAGE];
        assert!(loaded.is_ok_and(|loaded| loaded[..] == *bytes), "the bytes of page {page} differ");
        let flag = rust.fetch_flag(page as u64);
        assert!(flag.is_ok_and(|flag| flag == port.flags[page]), "the flags of page {page} differ");
    }
    assert!(*rust.lr() == port.machine.memory.reservation, "the reservations differ");
}

/// The Rust's load64 where no other load is compiled: its loop over the bytes is then made for 8 of them.
#[inline(never)]
fn load64_alone<M: Memory<REG = u64>>(memory: &mut M, address: u64) -> Result<u64, Error> {
    memory.load64(&address)
}

/// Zeros, the source and zeros again, alone, into bytes that are apart from the source and as long as all three.
fn pieces(to: *mut u8, source: &[u8]) {
    unsafe {
        ptr::write_bytes(to, 0, LEAD);
        ptr::copy(source.as_ptr(), to.add(LEAD), source.len());
        ptr::write_bytes(to.add(LEAD + source.len()), 0, LEAD);
    }
}

pub fn time(cases: &Cases) {
    time_layer::<Sparse>(cases);
    time_layer::<WXorX>(cases);
    time_functions(cases);
}

/// The calls of one memory.
fn time_layer<L: Layer>(cases: &Cases) {
    let (rust, port) = filled::<L>();
    let name = |call: &str| format!("{} {call}", L::NAME);
    // plain copies and fills go into bytes that are neither side's
    let beside = black_box(block(FILL).as_mut_ptr());
    let (source, out) = (patterned(FILL), block(16 * PAGE));
    // no number of a call is a constant to the compiler
    let (at, value) = (black_box(PLACE as u64), black_box(7));
    let (code, from, fill, flag) =
        (black_box(CODE as u64), black_box(FILLED as u64), black_box(FILL as u64), black_box(EXECUTABLE));
    let number = port.ask(|lent, memory| L::CALLS.set_flag(lent, memory, CODE as u64 / PAGE as u64, flag));
    assert!(number == 0 && rust.set_flag(CODE as u64 / PAGE as u64, flag).is_ok(), "no page for code");

    // ---- bytes
    for n in SIZES {
        let bytes = black_box(&source[..n]);
        cases.race_beside(
            &name("store_bytes"),
            n,
            calls_of(n),
            |_| Calls::store_bytes(rust, at, bytes),
            |_| port.store(|lent, memory| L::CALLS.store_bytes(lent, bytes, memory, at)),
            "memmove",
            || unsafe { ptr::copy(bytes.as_ptr(), beside, bytes.len()) },
        );
        same::<L>(rust, port);
    }
    for n in SIZES {
        let size = black_box(n as u64);
        cases.race_beside(
            &name("store_byte"),
            n,
            calls_of(n),
            |_| Calls::store_byte(rust, at, size, value),
            |_| port.store(|lent, memory| L::CALLS.store_byte(lent, memory, at, size, value)),
            "memset",
            || unsafe { ptr::write_bytes(beside, value, size as usize) },
        );
        same::<L>(rust, port);
    }
    for n in SIZES {
        let size = black_box(n as u64);
        cases.race_beside(
            &name("load_bytes"),
            n,
            calls_of(n),
            |_| Calls::load_bytes(rust, at, size),
            |_| {
                let number = port.ask(|lent, memory| L::CALLS.load_bytes(lent, out, memory, at, size));
                Value { number, value: size }
            },
            "memmove",
            || unsafe { ptr::copy(source.as_ptr(), beside, size as usize) },
        );
        let loaded = rust.load_bytes(at, size);
        let number = port.ask(|lent, memory| L::CALLS.load_bytes(lent, out, memory, at, size));
        assert!(number == 0 && loaded.is_ok_and(|loaded| loaded[..] == out[..n]), "the bytes loaded differ");
    }
    let text = black_box(TEXT as u64);
    let number = port.store(|lent, memory| L::CALLS.store_byte(lent, memory, text, PAGE as u64, 1)).number;
    assert!(number == 0 && rust.store_byte(text, PAGE as u64, 1).is_ok(), "no page for strings");
    for n in STRINGS {
        let end = text + n as u64;
        let number = port.store(|lent, memory| L::CALLS.store8(lent, memory, end, 0)).number;
        assert!(number == 0 && rust.store8(&end, &0).is_ok(), "no string");
        cases.race(
            &name("load_c_string"),
            Some(n),
            calls_of(8 * n),
            |_| Calls::load_c_string(rust, text),
            |_| port.ask(|lent, memory| L::CALLS.load_c_string(lent, out, memory, text)),
        );
        let loaded = Calls::load_c_string(rust, text);
        let Value { number, value } = port.ask(|lent, memory| L::CALLS.load_c_string(lent, out, memory, text));
        let same = loaded.is_ok_and(|loaded| loaded[..] == out[..n]);
        assert!(number == 0 && value == n as u64 && same, "the strings differ");
        // a longer string begins here
        let number = port.store(|lent, memory| L::CALLS.store8(lent, memory, end, 1)).number;
        assert!(number == 0 && rust.store8(&end, &1).is_ok(), "no string");
    }

    // ---- words
    macro_rules! words {
        ($($call:ident $bytes:literal $from:ident;)*) => {
            $(cases.race(
                &name(stringify!($call)),
                Some($bytes),
                (PAGE / $bytes) as u64,
                |i| Calls::$call(rust, $from + $bytes * i),
                |i| port.ask(|lent, memory| L::CALLS.$call(lent, memory, $from + $bytes * i)),
            );)*
        };
    }
    macro_rules! stored_words {
        ($($call:ident $bytes:literal;)*) => {
            $(cases.race(
                &name(stringify!($call)),
                Some($bytes),
                (PAGE / $bytes) as u64,
                |i| Calls::$call(rust, at + $bytes * i, i),
                |i| port.store(|lent, memory| L::CALLS.$call(lent, memory, at + $bytes * i, i)),
            );
            same::<L>(rust, port);)*
        };
    }
    stored_words! { store8 1; store16 2; store32 4; store64 8; }
    words! { load8 1 at; load16 2 at; load32 4 at; load64 8 at; execute_load16 2 code; execute_load32 4 code; }

    // ---- pages
    let all = PAGES as u64;
    macro_rules! flags {
        ($($call:ident($($flag:ident)?);)*) => {
            $(cases.race(
                &name(stringify!($call)),
                None,
                all,
                |page| Calls::$call(rust, page $(, $flag)?),
                |page| port.ask(|lent, memory| L::CALLS.$call(lent, memory, page $(, $flag)?)),
            );
            same::<L>(rust, port);)*
        };
    }
    let dirty = black_box(DIRTY);
    flags! { fetch_flag(); clear_flag(dirty); set_flag(dirty); }
    cases.race_beside(
        &name("init_pages"),
        FILL,
        calls_of(FILL),
        |_| Calls::init_pages(rust, from, fill, flag, None, 0),
        |_| port.store(|lent, memory| L::CALLS.init_pages(lent, &[], memory, from, fill, flag, 0)),
        "memset",
        || unsafe { ptr::write_bytes(beside, 0, fill as usize) },
    );
    same::<L>(rust, port);
    for pages in [1, FILL / PAGE] {
        let (n, lead) = (pages * PAGE, black_box(LEAD as u64));
        let (size, source) = (black_box(n as u64), black_box(&source[..n - 2 * LEAD]));
        cases.race_beside(
            &name("init_pages with a source"),
            n,
            calls_of(n),
            |_| Calls::init_pages(rust, from, size, flag, Some(source), lead),
            |_| port.store(|lent, memory| L::CALLS.init_pages(lent, source, memory, from, size, flag, lead)),
            "pieces",
            || pieces(beside, source),
        );
        same::<L>(rust, port);
    }

    // ---- the memory's own numbers
    macro_rules! numbers {
        ($($call:ident;)*) => {
            $(cases.race(
                &name(stringify!($call)),
                None,
                calls_of(1),
                |_| Calls::$call(rust),
                |_| L::CALLS.$call(port.machine.memory),
            );)*
        };
    }
    numbers! { memory_size; memory_pages; lr; }
    cases.race(
        &name("set_lr"),
        Some(8),
        calls_of(8),
        |i| Calls::set_lr(rust, i),
        |i| port.machine.memory = L::CALLS.set_lr(port.machine.memory, i),
    );
    let spare = Port::new(PAGES);
    for pages in FRESH {
        let size = black_box(pages * PAGE);
        cases.race(
            &name("fresh"),
            Some(size),
            calls_of(pages),
            |_| Calls::memory_size(black_box(&<L::Upstream as Calls>::new_with_memory(size))) as u64,
            |_| {
                let Lent { slots, flags, area } = spare.lent();
                let lent = Lent { slots: &mut slots[..pages], flags: &mut flags[..pages], area };
                let fresh = L::CALLS.fresh(lent, size as u64);
                Value { number: fresh.number, value: fresh.memory.size }
            },
        );
    }

    cases.race(
        &name("load64 alone"),
        Some(8),
        (PAGE / 8) as u64,
        |i| load64_alone(rust, at + 8 * i),
        |i| port.ask(|lent, memory| L::CALLS.load64(lent, memory, at + 8 * i)),
    );

    // ---- over the end of a page: not among the cases of the goal
    let (end, bytes) = (at + PAGE as u64, black_box(&source[..64]));
    cases.race(
        &name("store_bytes across"),
        Some(64),
        calls_of(64),
        |_| Calls::store_bytes(rust, end - 32, bytes),
        |_| port.store(|lent, memory| L::CALLS.store_bytes(lent, bytes, memory, end - 32)),
    );
    same::<L>(rust, port);
    cases.race(
        &name("store64 across"),
        Some(8),
        calls_of(8),
        |i| Calls::store64(rust, end - 4, i),
        |i| port.store(|lent, memory| L::CALLS.store64(lent, memory, end - 4, i)),
    );
    cases.race(
        &name("load64 across"),
        Some(8),
        calls_of(8),
        |_| Calls::load64(rust, end - 4),
        |_| port.ask(|lent, memory| L::CALLS.load64(lent, memory, end - 4)),
    );
    same::<L>(rust, port);
}

/// The functions of memory/mod.rs: over sparse memory, as the port's are.
fn time_functions(cases: &Cases) {
    macro_rules! rounding {
        ($($call:ident;)*) => {
            $(cases.race(
                concat!("memory ", stringify!($call)),
                None,
                calls_of(1),
                |i| upstream::$call(100 * i),
                |i| archive::$call(100 * i),
            );)*
        };
    }
    rounding! { round_page_up; round_page_down; }
    let size = black_box(PAGE as u64);
    cases.race(
        "memory get_page_indices",
        None,
        calls_of(1),
        |i| upstream::get_page_indices(100 * i, size),
        |i| archive::get_page_indices(100 * i, size),
    );
    let (rust, port) = filled::<Sparse>();
    for pages in RANGES {
        let (first, last, flag) = (black_box(0), black_box(pages as u64 - 1), black_box(DIRTY));
        cases.race(
            "memory check_permission",
            Some(pages * PAGE),
            calls_of(pages),
            |_| Calls::check_permission(rust, first, last, flag),
            |_| port.ask(|lent, memory| archive::check_permission(lent, memory, first, last, flag)),
        );
    }
    for pages in RANGES {
        let (first, last) = (black_box(0), black_box(pages as u64 - 1));
        for page in 0..PAGES as u64 {
            let number = port.ask(|lent, memory| SPARSE.clear_flag(lent, memory, page, DIRTY));
            assert!(number == 0 && rust.clear_flag(page, DIRTY).is_ok(), "no clean page");
        }
        cases.race(
            "memory set_dirty",
            Some(pages * PAGE),
            calls_of(pages),
            |_| Calls::set_dirty(rust, first, last),
            |_| port.ask(|lent, memory| archive::set_dirty(lent, memory, first, last)),
        );
        same::<Sparse>(rust, port);
    }
    let beside = black_box(block(16 * PAGE).as_mut_ptr());
    let all = patterned(16 * PAGE);
    for pages in [1, 16] {
        let (n, lead, at) = (pages * PAGE, black_box(LEAD as u64), black_box(PLACE as u64));
        let (size, source) = (black_box(n as u64), black_box(&all[..n - 2 * LEAD]));
        cases.race_beside(
            "memory fill_page_data",
            n,
            calls_of(n),
            |_| Calls::fill_page_data(rust, at, size, source, lead),
            |_| port.store(|lent, memory| archive::fill_page_data(lent, source, memory, at, size, lead)),
            "pieces",
            || pieces(beside, source),
        );
        same::<Sparse>(rust, port);
    }
}
