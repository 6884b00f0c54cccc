//! What a call costs by itself: an exported function that does little, beside a function of Rust with the same
//! parameters and answer that does nothing.

use crate::archive::{
    self, ContextStored, Files, Found, Lent, Machine, MachineAnswer, Made, Memory, Recorded, SPARSE, Sources, Stored,
    Tracked, Value,
};
use crate::rounds::{Answered, Cases, calls_of, race};
use crate::sides::{ITEM, PAGE, Port};
use std::hint::black_box;

const TABLE: &str = "crossing";
const PAGES: usize = 64;
/// The call that the others are measured by: a store of 8 bytes.
const STORED_WORD: &str = "slices; 8 bytes stored";
/// The numbers of what is not found, and of a wrong length.
const NO_DATA: u32 = 6;
const WRONG_LENGTH: u32 = 9;

/// Functions that do nothing, as pointers that the compiler knows nothing of: all parameters go over.
macro_rules! empty {
    ($(fn $call:ident($($name:tt: $word:ty),*) -> $answer:ty { $value:expr })*) => {
        struct Empty {
            $($call: extern "C" fn($($word),*) -> $answer,)*
        }

        impl Empty {
            fn new() -> Self {
                $(extern "C" fn $call($($name: $word),*) -> $answer {
                    $value
                })*
                black_box(Empty { $($call),* })
            }
        }
    };
}

empty! {
    fn word(_: u64) -> u64 { 0 }
    fn memory(_: Memory) -> u64 { 0 }
    fn memory_back(memory: Memory, _: u64) -> Memory { memory }
    fn fetch(
        _: *const u16, _: usize, _: *const u8, _: usize, _: *const u8, _: usize, _: u64, _: u64, _: u64
    ) -> Value { Value { number: 0, value: 0 } }
    fn store(
        _: *mut u16, _: usize, _: *mut u8, _: usize, _: *mut u8, _: usize, _: u64, _: u64, _: u64, _: u64
    ) -> Stored { Stored { number: 0, used: 0 } }
    fn store_bytes(
        _: *mut u16, _: usize, _: *mut u8, _: usize, _: *mut u8, _: usize, _: *const u8, _: usize,
        _: u64, _: u64, _: u64
    ) -> Stored { Stored { number: 0, used: 0 } }
    fn record(
        _: *const u16, _: usize, _: *const u8, _: usize, _: *const u8, _: usize, _: *const u64, _: usize,
        _: u64, _: u64, _: u64
    ) -> Recorded { Recorded { number: 0, tracked: 0, id: 0, offset: 0, flag: 0 } }
    fn untrack(
        _: *const u16, _: usize, _: *mut u8, _: usize, _: *const u8, _: usize, _: *mut u64, _: usize,
        _: u64, _: u64, _: u64, _: u64
    ) -> u32 { 0 }
    fn find(
        _: *const u64, _: usize, _: *const u8, _: usize, _: u64, _: u64, _: u64
    ) -> Found { Found { number: 0, start: 0, count: 0, full: 0 } }
    fn context(
        _: *mut u16, _: usize, _: *mut u8, _: usize, _: *mut u8, _: usize, _: *mut u64, _: usize,
        _: *const u64, _: usize, _: *const u8, _: usize, _: u64, _: u64, _: u64, _: u64, _: u64, _: u64, _: u64
    ) -> ContextStored { ContextStored { number: 0, used: 0, stored: 0, full: 0 } }
    fn machine(_: Machine) -> u64 { 0 }
    fn machine_back(machine: Machine, _: u64) -> Machine { machine }
    fn machine_answer(machine: Machine, _: u64, _: u64) -> MachineAnswer { MachineAnswer { number: 0, machine } }
    fn make(
        _: *const u16, _: usize, _: *const u8, _: usize, _: *const u8, _: usize, _: *const u64, _: usize,
        _: *mut u8, _: usize, _: *mut u8, _: usize, _: Machine
    ) -> Made { Made { number: 0, records: 0, pages: 0 } }
    fn resume(
        _: *mut u16, _: usize, _: *mut u8, _: usize, _: *mut u8, _: usize, _: *mut u64, _: usize,
        _: *const u64, _: usize, _: *const u8, _: usize, _: *const u8, _: usize, _: *const u8, _: usize,
        machine: Machine
    ) -> MachineAnswer { MachineAnswer { number: 0, machine } }
}

/// An empty function that is lent a memory's storage, with the words that follow it.
macro_rules! lend {
    ($function:expr, $lent:expr $(, $word:expr)*) => {{
        let Lent { slots, flags, area } = $lent;
        $function(
            slots.as_mut_ptr(),
            slots.len(),
            flags.as_mut_ptr(),
            flags.len(),
            area.as_mut_ptr(),
            area.len()
            $(, $word)*
        )
    }};
}

/// The same with records.
macro_rules! lend_tracked {
    ($function:expr, $tracked:expr $(, $word:expr)*) => {{
        let Tracked { lent, records } = $tracked;
        lend!($function, lent, records.as_mut_ptr(), records.len() $(, $word)*)
    }};
}

/// An answer that must have this number.
fn refused(number: u32, expected: u32) -> u32 {
    number ^ expected
}

/// Two machines alike: one for the empty function, one for the exported one.
type Two = [&'static mut Port; 2];

fn two(change: impl Fn(&mut Port)) -> Two {
    [(); 2].map(|()| {
        let port = Port::new(PAGES);
        change(port);
        port
    })
}

/// The empty function and the exported one in turn. `over` is what goes over the boundary.
fn row<E: Answered, P: Answered>(
    cases: &Cases,
    over: &str,
    call: &str,
    [lender, machine]: &mut Two,
    empty: impl Fn(&mut Port, u64) -> E,
    exported: impl Fn(&mut Port, u64) -> P,
) {
    if cases.wants(TABLE, &format!("{call} {over}")) {
        // the empty functions have nothing to say
        let number = |(number, _): (u32, u64)| number;
        let times =
            race(call, calls_of(8), |i| number(empty(lender, i).answer()), |i| number(exported(machine, i).answer()));
        let [empty, exported] = times.map(|time| format!("{time:.2}"));
        cases.say(TABLE, call, &[over.into(), empty, exported]);
    }
}

pub fn time(cases: &Cases) {
    let empty = Empty::new();
    let (at, page, size) = (black_box(PAGE as u64), black_box(1), black_box(8));
    let mut whole = two(|_| ());
    for port in &mut whole {
        let number = port.store(|lent, memory| SPARSE.store64(lent, memory, at, 1)).number;
        assert!(number == 0, "a page is not present");
    }
    // a slot number fewer than pages; a word of the records fewer
    let mut few_slots = two(|port| port.slots = &mut std::mem::take(&mut port.slots)[1..]);
    let mut few_records = two(|port| port.records = &mut std::mem::take(&mut port.records)[1..]);
    let (none, no_files) =
        (black_box(Sources { directory: &[], bytes: &[] }), black_box(Files { records: &[], pages: &[] }));

    row(cases, "nothing: no call", "-", &mut whole, |_, _| (), |_, _| ());
    row(cases, "a word", "round_page_down", &mut whole, |_, i| (empty.word)(i), |_, i| archive::round_page_down(i));
    row(
        cases,
        "a memory",
        "sparse_memory_size",
        &mut whole,
        |port, _| (empty.memory)(port.machine.memory),
        |port, _| SPARSE.memory_size(port.machine.memory),
    );
    row(
        cases,
        "a memory, and back",
        "sparse_set_lr",
        &mut whole,
        |port, i| port.machine.memory = (empty.memory_back)(port.machine.memory, i),
        |port, i| port.machine.memory = SPARSE.set_lr(port.machine.memory, i),
    );
    row(
        cases,
        "slices: slots, flags, area",
        "sparse_fetch_flag",
        &mut whole,
        |port, _| port.ask(|lent, memory| lend!((empty.fetch), lent, memory.size, page, memory.used)),
        |port, _| port.ask(|lent, memory| SPARSE.fetch_flag(lent, memory, page)),
    );
    row(
        cases,
        "slices; refused 9",
        "sparse_store64",
        &mut few_slots,
        |port, i| port.store(|lent, memory| lend!((empty.store), lent, memory.size, at, i, memory.used)),
        |port, i| refused(port.store(|lent, memory| SPARSE.store64(lent, memory, at, i)).number, WRONG_LENGTH),
    );
    row(
        cases,
        STORED_WORD,
        "sparse_store64",
        &mut whole,
        |port, i| port.store(|lent, memory| lend!((empty.store), lent, memory.size, at, i, memory.used)),
        |port, i| port.store(|lent, memory| SPARSE.store64(lent, memory, at, i)),
    );
    row(
        cases,
        "slices; no bytes",
        "sparse_store_bytes",
        &mut whole,
        |port, _| {
            port.store(|lent, memory| {
                lend!((empty.store_bytes), lent, none.bytes.as_ptr(), none.bytes.len(), memory.size, at, memory.used)
            })
        },
        |port, _| port.store(|lent, memory| SPARSE.store_bytes(lent, none.bytes, memory, at)),
    );
    row(
        cases,
        "slices, records",
        "page_record",
        &mut whole,
        |port, _| port.track(|tracked, memory| lend_tracked!((empty.record), tracked, memory.size, page, memory.used)),
        |port, _| port.track(|tracked, memory| archive::page_record(tracked, memory, page)),
    );
    row(
        cases,
        "slices, records; refused 9",
        "untrack_pages",
        &mut few_records,
        |port, _| {
            port.track(|tracked, memory| lend_tracked!((empty.untrack), tracked, memory.size, at, size, memory.used))
        },
        |port, _| {
            let number = port.track(|tracked, memory| archive::untrack_pages(tracked, memory, at, size));
            refused(number, WRONG_LENGTH)
        },
    );
    row(
        cases,
        "sources, none of them",
        "find_data",
        &mut whole,
        |_, i| {
            let Sources { directory, bytes } = none;
            (empty.find)(directory.as_ptr(), directory.len(), bytes.as_ptr(), bytes.len(), ITEM, i, size)
        },
        |_, i| refused(archive::find_data(none, ITEM, i, size).number, NO_DATA),
    );
    row(
        cases,
        "slices, records, sources; refused 9",
        "context_store_bytes",
        &mut few_records,
        |port, _| {
            port.track(|tracked, memory| {
                let Sources { directory, bytes } = none;
                lend_tracked!(
                    (empty.context),
                    tracked,
                    directory.as_ptr(),
                    directory.len(),
                    bytes.as_ptr(),
                    bytes.len(),
                    memory.size,
                    at,
                    ITEM,
                    0,
                    size,
                    0,
                    memory.used
                )
            })
        },
        |port, _| refused(port.context_store_bytes(none, at, 0, size, 0).number, WRONG_LENGTH),
    );
    row(
        cases,
        "a machine",
        "machine_pc",
        &mut whole,
        |port, _| (empty.machine)(port.machine),
        |port, _| archive::machine_pc(port.machine),
    );
    row(
        cases,
        "a machine, and back",
        "machine_update_pc",
        &mut whole,
        |port, i| port.change(|machine| (empty.machine_back)(machine, i)),
        |port, i| port.change(|machine| archive::machine_update_pc(machine, i)),
    );
    row(
        cases,
        "a machine, and back in an answer",
        "machine_set_register",
        &mut whole,
        |port, i| {
            let MachineAnswer { number, machine } = (empty.machine_answer)(port.machine, page, i);
            port.machine = machine;
            number
        },
        |port, i| {
            let MachineAnswer { number, machine } = archive::machine_set_register(port.machine, page, i);
            port.machine = machine;
            number
        },
    );
    row(
        cases,
        "slices, records, outputs, a machine; refused 9",
        "make_snapshot",
        &mut few_records,
        |port, _| {
            let machine = port.machine;
            let (file, pages) = (&mut [0u8; 0][..], &mut [0u8; 0][..]);
            lend_tracked!(
                (empty.make),
                port.tracked(),
                file.as_mut_ptr(),
                file.len(),
                pages.as_mut_ptr(),
                pages.len(),
                machine
            )
        },
        |port, _| refused(port.make_snapshot(&mut [], &mut []).number, WRONG_LENGTH),
    );
    row(
        cases,
        "slices, records, sources, files, a machine, and back; refused 9",
        "resume",
        &mut few_records,
        |port, _| {
            let machine = port.machine;
            let (Sources { directory, bytes }, Files { records, pages }) = (none, no_files);
            let answer = lend_tracked!(
                (empty.resume),
                port.tracked(),
                directory.as_ptr(),
                directory.len(),
                bytes.as_ptr(),
                bytes.len(),
                records.as_ptr(),
                records.len(),
                pages.as_ptr(),
                pages.len(),
                machine
            );
            port.machine = answer.machine;
            answer.number
        },
        |port, _| refused(port.resume(none, no_files), WRONG_LENGTH),
    );
}
