//! Calls of the archive alone, on storage of any lengths and contents and with any numbers, the size and the slots in use
//! among them. What is checked of each: its number is one that it can answer; where a length is wrong it is 9, and
//! nothing is changed; a call that only reads changes nothing; the slots handed back are no fewer than before, and no
//! more than there are; an output keeps what is past the bytes answered for.

use crate::Counts;
use crate::decode::{Decoder, MAXIMUM, PAGE};
use crate::port::archive::{
    self, Calls, Files, Lent, Machine, MachineAnswer, Memory, REGISTERS, SPARSE, Sources, Stored, Tracked, Value, WXORX,
};
use crate::port::callscript::UNWRITTEN;

const MOST_CALLS: usize = 12;
const MOST_ROOM: u64 = 9_000;
/// The most slots that storage may have, and the words of a page's record.
const MOST_SLOTS: u64 = 65_535;
const RECORD: u64 = 3;

#[derive(Clone, PartialEq)]
struct Storage {
    slots: Vec<u16>,
    flags: Vec<u8>,
    words: Vec<u64>,
    area: Vec<u8>,
}

impl Storage {
    fn lent(&mut self) -> Lent<'_> {
        Lent { slots: &mut self.slots, flags: &mut self.flags, area: &mut self.area }
    }

    fn tracked(&mut self) -> Tracked<'_> {
        let lent = Lent { slots: &mut self.slots, flags: &mut self.flags, area: &mut self.area };
        Tracked { lent, records: &mut self.words }
    }

    fn slots(&self) -> u64 {
        self.area.len() as u64 / PAGE
    }

    /// Document 01's lengths for a memory of this size with so many slots in use.
    fn is_right(&self, size: u64, used: u64) -> bool {
        let pages = size / PAGE;
        size.is_multiple_of(PAGE)
            && size <= MAXIMUM
            && self.slots.len() as u64 == pages
            && self.flags.len() as u64 == pages
            && (self.area.len() as u64).is_multiple_of(PAGE)
            && self.slots() <= MOST_SLOTS
            && used <= self.slots()
    }

    fn has_records(&self, size: u64) -> bool {
        self.words.len() as u64 == RECORD * (size / PAGE)
    }
}

/// What a call may change, where it is not refused for a length.
enum Changes {
    Nothing,
    Storage,
}
use Changes::*;

/// A call's number, the slots in use that it hands back, and what it may change.
struct Answer {
    number: u32,
    used: u64,
    changes: Changes,
    /// whether it is lent records, and they count
    tracked: bool,
    numbers: &'static [u32],
}

/// Any storage: mostly that of a few pages as it should be.
fn storage(d: &mut Decoder, pages: u64) -> Storage {
    let exact = d.byte() < 208;
    let mut length = |right: u64| match d.byte() {
        _ if exact => right,
        0..128 => right,
        128..176 => right + 1,
        176..224 => right.saturating_sub(1),
        _ => d.number(0) % (MOST_ROOM * 3),
    } as usize;
    let (slots, flags, words) = (length(pages), length(pages), length(RECORD * pages));
    let slot_count = length(pages) as u64 % 16;
    let area = length(slot_count * PAGE);
    let seed = d.byte();
    let slot = |i: usize| match (seed as usize + i * 7) % 5 {
        0 | 1 => u16::MAX,
        2 => i as u16,
        3 => (i / 2) as u16,
        _ => (seed as u16) << (i % 9),
    };
    let word = |i: usize| (i as u64).wrapping_mul(0x9e37_79b9_7f4a_7c15) >> (seed % 64);
    Storage {
        slots: (0..slots).map(slot).collect(),
        flags: (0..flags).map(|i| (seed >> (i % 8)) & 7).collect(),
        words: (0..words).map(word).collect(),
        area: vec![seed; area],
    }
}

fn machine(d: &mut Decoder, pages: u64, slots: u64) -> Machine {
    let size = if d.byte() < 240 { pages * PAGE } else { d.number(0) };
    let used = if d.byte() < 240 { u64::from(d.byte()) % (slots + 1) } else { d.number(0) };
    let version = d.byte().into();
    let memory = Memory { size, used, reservation: d.number(0) };
    let seed = d.number(0);
    let registers = std::array::from_fn(|i| seed.wrapping_mul(i as u64));
    Machine { registers, pc: seed, next_pc: !seed, version, cycles: seed / 2, max_cycles: seed / 3, memory }
}

pub fn run(bytes: &[u8], counts: &mut Counts) {
    let mut d = Decoder::new(bytes);
    let pages = u64::from(d.byte()) % 7;
    let mut d = d.of_size(pages * PAGE);
    let mut storage = storage(&mut d, pages);
    let mut machine = machine(&mut d, pages, storage.slots());
    for _ in 0..MOST_CALLS {
        if d.is_empty() {
            return;
        }
        let (before, memory) = (storage.clone(), machine.memory);
        let which = d.byte();
        let answer = call(&mut d, which, &mut storage, &mut machine);
        let Answer { number, used, changes, tracked, numbers } = answer;
        *counts.direct.entry(number).or_default() += 1;
        let wrong = !before.is_right(memory.size, memory.used) || tracked && !before.has_records(memory.size);
        let fail = |what: &str| -> ! {
            eprintln!("fuzz: call {which} of the archive alone, number {number}: {what}");
            std::process::abort()
        };
        if !numbers.contains(&number) {
            fail("none of its numbers");
        }
        if wrong && numbers.contains(&9) && (number != 9 || used != memory.used || storage != before) {
            fail("a wrong length is no refusal that leaves all as it was");
        }
        if matches!(changes, Nothing) && storage != before {
            fail("storage changed that is read alone");
        }
        if !wrong && !(memory.used..=storage.slots()).contains(&used) {
            fail("slots in use that can't be");
        }
        machine.memory.used = used;
    }
}

fn output(d: &mut Decoder) -> Vec<u8> {
    vec![UNWRITTEN; (d.number(0) % MOST_ROOM) as usize]
}

fn keeps(out: &[u8], written: u64) {
    let rest = usize::try_from(written).ok().and_then(|written| out.get(written..));
    if !rest.is_some_and(|rest| rest.iter().all(|byte| *byte == UNWRITTEN)) {
        eprintln!("fuzz: an output of the archive alone is written past {written}");
        std::process::abort()
    }
}

/// The sources of a call: two items, and a directory with numbers of any kind after them.
fn directory(d: &mut Decoder, bytes: &[u8]) -> Vec<u64> {
    let half = bytes.len() as u64 / 2;
    let mut numbers = vec![7, 0, half, 8, half, half];
    for _ in 0..d.byte() % 8 {
        numbers.push(d.number(0));
    }
    numbers
}

fn call(d: &mut Decoder, which: u8, storage: &mut Storage, machine: &mut Machine) -> Answer {
    let memory = machine.memory;
    let used = memory.used;
    let sparse = which & 1 == 1;
    let layer: &Calls = if sparse { &SPARSE } else { &WXORX };
    let reads = |number, numbers| Answer { number, used, changes: Nothing, tracked: false, numbers };
    let flags = |number, tracked, numbers| Answer { number, used, changes: Storage, tracked, numbers };
    let stores = |Stored { number, used }| Answer {
        number,
        used,
        changes: Storage,
        tracked: false,
        numbers: if sparse { &[0, 2, 7, 9] } else { &[0, 2, 4, 7, 9] },
    };
    let address = d.number(0);
    match (which >> 1) % 32 {
        kind @ 0..4 => {
            let store = [Calls::store8, Calls::store16, Calls::store32, Calls::store64][usize::from(kind)];
            stores(store(layer, storage.lent(), memory, address, d.number(0)))
        }
        4 => stores(layer.store_byte(storage.lent(), memory, address, d.number(0), d.byte())),
        5 => {
            let bytes = vec![d.byte(); (d.number(0) % MOST_ROOM) as usize];
            stores(layer.store_bytes(storage.lent(), &bytes, memory, address))
        }
        6 => {
            let bytes = vec![d.byte(); (d.number(0) % MOST_ROOM) as usize];
            let (size, flag, lead) = (d.number(0), d.byte(), d.number(0));
            let made = layer.init_pages(storage.lent(), &bytes, memory, address, size, flag, lead);
            Answer { numbers: if sparse { &[0, 2, 7, 9] } else { &[0, 2, 3, 5, 7, 9] }, ..stores(made) }
        }
        7 => {
            let bytes = vec![d.byte(); (d.number(0) % MOST_ROOM) as usize];
            let filled = archive::fill_page_data(storage.lent(), &bytes, memory, address, d.number(0), d.number(0));
            Answer { numbers: &[0, 2, 7, 9], ..stores(filled) }
        }
        kind @ 8..12 => {
            let load = [Calls::load8, Calls::load16, Calls::load32, Calls::load64][usize::from(kind - 8)];
            reads(load(layer, storage.lent(), memory, address).number, &[0, 2, 9])
        }
        kind @ 12..14 => {
            let load = [Calls::execute_load16, Calls::execute_load32][usize::from(kind - 12)];
            let number = load(layer, storage.lent(), memory, address).number;
            reads(number, if sparse { &[0, 2, 9] } else { &[0, 2, 4, 9] })
        }
        14 => {
            let (mut out, size) = (output(d), d.number(0));
            let number = layer.load_bytes(storage.lent(), &mut out, memory, address, size);
            keeps(&out, if number == 0 { size } else { 0 });
            reads(number, &[0, 2, 8, 9])
        }
        15 => {
            let mut out = output(d);
            let Value { number, value } = layer.load_c_string(storage.lent(), &mut out, memory, address);
            if number == 0 {
                keeps(&out, value);
            }
            reads(number, &[0, 2, 8, 9])
        }
        16 => reads(layer.fetch_flag(storage.lent(), memory, address).number, &[0, 2, 9]),
        17 => flags(layer.set_flag(storage.lent(), memory, address, d.byte()), false, &[0, 2, 9]),
        18 => flags(layer.clear_flag(storage.lent(), memory, address, d.byte()), false, &[0, 2, 9]),
        19 => reads(archive::check_permission(storage.lent(), memory, address, d.number(0), d.flag()), &[0, 2, 4, 9]),
        20 => flags(archive::set_dirty(storage.lent(), memory, address, d.number(0)), false, &[0, 2, 9]),
        21 => {
            let number =
                archive::track_pages(storage.tracked(), memory, address, d.number(0), d.number(0), d.number(0));
            flags(number, true, &[0, 2, 9])
        }
        22 => flags(archive::untrack_pages(storage.tracked(), memory, address, d.number(0)), true, &[0, 2, 9]),
        23 => {
            let actions: Vec<u64> = (0..d.byte() % 20).map(|_| d.number(0)).collect();
            let number = archive::mark_program(storage.tracked(), &actions, memory, address, d.number(0));
            flags(number, true, &[0, 2, 9])
        }
        24 => Answer {
            tracked: true,
            ..reads(archive::page_record(storage.tracked(), memory, address).number, &[0, 2, 9])
        },
        25 | 26 => {
            let bytes = vec![d.byte(); 2 * PAGE as usize];
            let directory = directory(d, &bytes);
            let sources = Sources { directory: &directory, bytes: &bytes };
            let (id, offset, size, place) = (d.id(0), d.number(0), d.number(0), d.number(0));
            let stored =
                archive::context_store_bytes(storage.tracked(), sources, memory, address, id, offset, size, place);
            let Stored { number, used } = Stored { number: stored.number, used: stored.used };
            Answer { number, used, changes: Storage, tracked: true, numbers: &[0, 2, 4, 6, 7, 9] }
        }
        27 => {
            let bytes = vec![d.byte(); usize::from(d.short() % 300)];
            let directory = directory(d, &bytes);
            let sources = Sources { directory: &directory, bytes: &bytes };
            let found = archive::find_data(sources, address, d.number(0), d.number(0));
            let end = found.start.checked_add(found.count);
            if !end.is_some_and(|end| end <= bytes.len() as u64) {
                eprintln!("fuzz: data outside the source bytes");
                std::process::abort()
            }
            reads(found.number, &[0, 6])
        }
        28 | 29 => {
            let (mut file, mut pages) = (output(d), vec![UNWRITTEN; (d.number(0) % (8 * PAGE)) as usize]);
            let made = archive::make_snapshot(storage.tracked(), &mut file, &mut pages, *machine);
            keeps(&file, if made.number == 0 { made.records.saturating_mul(48) } else { 0 });
            keeps(&pages, if made.number == 0 { made.pages.saturating_mul(PAGE) } else { 0 });
            Answer { tracked: true, ..reads(made.number, &[0, 8, 9]) }
        }
        30 => {
            let bytes = vec![d.byte(); 2 * PAGE as usize];
            let directory = directory(d, &bytes);
            let (mut records, pages) = d.records();
            d.change(&mut records);
            let pages = vec![d.byte(); (pages * PAGE) as usize];
            let (sources, files) =
                (Sources { directory: &directory, bytes: &bytes }, Files { records: &records, pages: &pages });
            let MachineAnswer { number, machine: then } = archive::resume(storage.tracked(), sources, files, *machine);
            let used = then.memory.used;
            *machine = then;
            Answer { number, used, changes: Storage, tracked: true, numbers: &[0, 1, 2, 3, 4, 6, 7, 9, 11] }
        }
        _ => {
            let (i, x) = (address % (2 * REGISTERS as u64), d.number(0));
            let MachineAnswer { number, machine: then } = archive::machine_set_register(*machine, i, x);
            *machine = archive::machine_commit_pc(archive::machine_update_pc(then, x));
            machine.memory = layer.set_lr(machine.memory, x);
            if layer.memory_pages(machine.memory) != layer.memory_size(machine.memory) / PAGE {
                eprintln!("fuzz: pages of another size");
                std::process::abort()
            }
            reads(number, &[0, 10])
        }
    }
}
