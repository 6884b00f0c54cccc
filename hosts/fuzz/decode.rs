//! Bytes to a call script.
//!
//! Every row of bytes is a script, and nearly every one a script whose lines all ask something of a machine that is
//! there: what is read past the end is 0, a machine that isn't there is made fresh first, and numbers lie mostly close to
//! page ends and bounds. So a change of a byte changes a call, and what follows it stays as it was.
//!
//! Machines 0 and 1 stay inside the oracle's domain. Machines 2 and 3 may leave it, by few slots and by `lend`, `slot`
//! and `used`; they read all files, and write none that 0 and 1 read.

use std::fmt::Write;

pub const PAGE: u64 = 4096;
/// The most memory that a machine can have.
pub const MAXIMUM: u64 = 4_194_304;
const MOST_SLOTS: u64 = 1100;
const MACHINES: usize = 4;
/// From here on machines may leave the domain.
pub const FREE: usize = 2;
/// The most lines that are decoded, and the most bytes that all data of a script has.
const MOST_LINES: usize = 64;
const MOST_DATA: u64 = 160_000;
/// The most bytes of one word of data, and of one output but a snapshot's.
const MOST_WORD: u64 = 24_600;
const MOST_ROOM: u64 = 20_000;
/// The longest row of hex digits in bytes.
pub const MOST_HEX: usize = 2048;
/// A record file's records: the bytes of each, the words of each, and the most that there are.
const RECORD: usize = 48;
const MOST_RECORDS: u64 = 1_033;
/// The most pages that a made-up page file has.
const MOST_PAGES: u64 = 12;
const REGISTERS: u64 = 32;

/// Of files: machines that stay in the domain write and read the first two.
const NAMES: [&str; 4] = ["a", "b", "c", "d"];

/// The first bytes of numbers and of data, each up to the next; and the kind of files that are bytes as they are.
pub mod tag {
    pub const NEAR_PAGE: u8 = 0x40;
    pub const NEAR_NAMED: u8 = 0x60;
    pub const NEAR_END: u8 = 0x80;
    pub const SHORT: u8 = 0xa0;
    pub const POWER: u8 = 0xb0;
    pub const REST: u8 = 0xb8;
    pub const PAGES: u8 = 0xd0;
    pub const WHOLE: u8 = 0xf0;

    pub const LONG: u8 = 64;
    pub const REPEATED: u8 = 96;
    pub const GENERATED: u8 = 160;

    pub const RAW: u8 = 0;
}

/// Numbers that rules speak of.
pub const NAMED: [u64; 16] = [
    0,
    MAXIMUM,
    u64::MAX,
    u64::MAX - (PAGE - 1),
    u64::MAX - (2 * PAGE - 1),
    1 << 63,
    1 << 32,
    u16::MAX as u64,
    MAXIMUM - PAGE,
    2 * MAXIMUM,
    MOST_RECORDS * RECORD as u64,
    9 * RECORD as u64,
    10 * RECORD as u64,
    10_000,
    u64::MAX - MAXIMUM,
    1 << 31,
];

/// Sizes of memories, in bytes: mostly a few pages, the largest, and some that are refused.
const SIZES: [u64; 32] = {
    let mut sizes = [4 * PAGE; 32];
    let mut i = 0;
    while i < 24 {
        sizes[i] = (i as u64 % 12) * PAGE;
        i += 1;
    }
    sizes[24] = MAXIMUM;
    sizes[25] = 1;
    sizes[26] = MAXIMUM + PAGE;
    sizes[27] = 32 * PAGE;
    sizes[28] = 65 * PAGE;
    sizes[29] = u64::MAX - (PAGE - 1);
    sizes
};

/// The sources of a script that doesn't begin with its own.
const ITEMS: [&str; 2] = ["source 7 gen:4:10000", "source 8 gen:5:8192"];

/// The words of a line after its head.
#[derive(Clone, Copy, PartialEq)]
pub enum Operand {
    Number,
    /// up to 255
    Byte,
    /// up to 255, mostly below 8
    Flag,
    /// up to 65,535
    Short,
    Id,
    /// of files to be read
    Read,
    /// of files to be written by a machine
    Written,
    /// of files that a script gives
    Given,
    Data,
    /// a record file and a page file
    Files,
    Size,
    Slots,
    Version,
    /// none, or four
    Lengths,
    /// of an output
    Room,
    RecordRoom,
    PageRoom,
    /// six for each
    Actions,
}
use Operand::*;

/// What a line begins with.
#[derive(Clone, Copy, PartialEq)]
pub enum Head {
    /// its word
    Plain,
    /// its word, and the machine
    Machine,
    /// the machine, and its word
    Call,
    /// the machine, and its word after `s.` or `w.`
    Memory,
}

/// A kind of line: how often, in 256, and what it is made of.
pub struct Kind {
    pub weight: u8,
    pub head: Head,
    pub word: &'static str,
    pub operands: &'static [Operand],
}

const fn kind(weight: u8, head: Head, word: &'static str, operands: &'static [Operand]) -> Kind {
    Kind { weight, head, word, operands }
}

/// The weights' sum is 256.
pub const KINDS: [Kind; 50] = [
    kind(6, Head::Plain, "source", &[Id, Data]),
    kind(4, Head::Plain, "entry", &[Id, Number, Number]),
    kind(10, Head::Machine, "fresh", &[Size, Slots, Version, Number]),
    kind(12, Head::Plain, "file", &[Given, Files]),
    kind(5, Head::Machine, "lend", &[Lengths]),
    kind(4, Head::Machine, "slot", &[Number, Short]),
    kind(3, Head::Machine, "used", &[Number]),
    kind(1, Head::Plain, "roundup", &[Number]),
    kind(1, Head::Plain, "rounddown", &[Number]),
    kind(2, Head::Plain, "page_indices", &[Number, Number]),
    kind(2, Head::Plain, "show", &[Read]),
    kind(14, Head::Memory, "store_bytes", &[Number, Data]),
    kind(9, Head::Memory, "store_byte", &[Number, Number, Byte]),
    kind(4, Head::Memory, "store8", &[Number, Number]),
    kind(4, Head::Memory, "store16", &[Number, Number]),
    kind(4, Head::Memory, "store32", &[Number, Number]),
    kind(4, Head::Memory, "store64", &[Number, Number]),
    kind(3, Head::Memory, "load8", &[Number]),
    kind(3, Head::Memory, "load16", &[Number]),
    kind(3, Head::Memory, "load32", &[Number]),
    kind(3, Head::Memory, "load64", &[Number]),
    kind(4, Head::Memory, "execute_load16", &[Number]),
    kind(4, Head::Memory, "execute_load32", &[Number]),
    kind(6, Head::Memory, "load_bytes", &[Number, Number, Room]),
    kind(6, Head::Memory, "load_c_string", &[Number, Room]),
    kind(12, Head::Memory, "init_pages", &[Number, Number, Flag, Number, Data]),
    kind(3, Head::Call, "fetch_flag", &[Number]),
    kind(10, Head::Call, "set_flag", &[Number, Flag]),
    kind(8, Head::Call, "clear_flag", &[Number, Flag]),
    kind(1, Head::Call, "lr", &[]),
    kind(2, Head::Call, "set_lr", &[Number]),
    kind(2, Head::Call, "register", &[Number]),
    kind(2, Head::Call, "set_register", &[Number, Number]),
    kind(1, Head::Call, "pc", &[]),
    kind(2, Head::Call, "update_pc", &[Number]),
    kind(2, Head::Call, "commit_pc", &[]),
    kind(1, Head::Call, "version", &[]),
    kind(1, Head::Call, "cycles", &[]),
    kind(1, Head::Call, "set_cycles", &[Number]),
    kind(1, Head::Call, "max_cycles", &[]),
    kind(1, Head::Call, "set_max_cycles", &[Number]),
    kind(4, Head::Call, "load_data", &[Id, Number, Number]),
    kind(12, Head::Call, "track", &[Number, Number, Id, Number]),
    kind(8, Head::Call, "untrack", &[Number, Number]),
    kind(15, Head::Call, "context", &[Number, Id, Number, Number, Number]),
    kind(10, Head::Call, "mark", &[Id, Number, Actions]),
    kind(12, Head::Call, "snapshot", &[Written, RecordRoom, PageRoom]),
    kind(18, Head::Call, "resume", &[Read]),
    kind(5, Head::Call, "dump", &[]),
    kind(1, Head::Call, "raw", &[]),
];

/// A line of the script. Where it is free the two may answer it differently.
pub struct Line {
    pub text: String,
    pub free: bool,
}

/// A machine as `fresh` made it.
#[derive(Clone, Copy)]
struct Shape {
    size: u64,
    slots: u64,
}

impl Shape {
    fn pages(self) -> u64 {
        self.size / PAGE
    }

    fn is_refused(self) -> bool {
        self.size > MAXIMUM || !self.size.is_multiple_of(PAGE)
    }
}

/// A record file and its page file's length, as the script has made them by now.
pub type Shown = (Vec<u8>, u64);

pub struct Decoder<'a> {
    bytes: &'a [u8],
    shapes: [Option<Shape>; MACHINES],
    /// of machines that are made fresh because a call needs them
    first: Shape,
    /// the names that files may have by now
    named: Vec<&'static str>,
    /// the number that was read last
    before: u64,
    lines: usize,
    /// bytes of data left
    data: u64,
}

impl<'a> Decoder<'a> {
    pub fn new(bytes: &'a [u8]) -> Self {
        let mut decoder = Decoder {
            bytes,
            shapes: [None; MACHINES],
            first: Shape { size: 0, slots: 0 },
            named: vec![],
            before: 0,
            lines: 0,
            data: MOST_DATA,
        };
        let size = u64::from(decoder.byte() % 12) * PAGE;
        decoder.first = Shape { size, slots: size / PAGE };
        decoder
    }

    /// For calls that are no lines of a script: machine 0 has this size, and whether there are bytes left.
    pub fn of_size(mut self, size: u64) -> Self {
        self.shapes[0] = Some(Shape { size, slots: 0 });
        self
    }

    pub fn is_empty(&self) -> bool {
        self.bytes.is_empty()
    }

    /// The lines after all others: all that is left to be seen of each machine.
    pub fn end(&self) -> Vec<Line> {
        let seen = |(k, shape): (usize, &Option<Shape>)| {
            let room = shape.as_ref()?.size + PAGE;
            let most = MOST_RECORDS * RECORD as u64;
            Some([format!("{k} dump"), format!("{k} snapshot end{k} {most} {room}"), format!("show end{k}")])
        };
        let texts = self.shapes.iter().enumerate().filter_map(seen).flatten();
        texts.map(|text| Line { text, free: false }).collect()
    }

    /// The next lines, none where the bytes are at their end: a call, and before it what it needs; with the machine that
    /// it is on, if any. `shown` knows the files of a name.
    pub fn next(&mut self, shown: impl FnOnce(&str) -> Option<Shown>) -> Option<(Option<usize>, Vec<Line>)> {
        if self.bytes.is_empty() || self.lines == MOST_LINES {
            return None;
        }
        let kind = kind_of(self.byte());
        let mut lines = vec![];
        if self.lines == 0 && !matches!(kind.word, "source" | "entry") {
            lines.extend(ITEMS.map(|text| Line { text: text.into(), free: false }));
        }
        self.lines += 1;
        let mut machine = 0;
        let mut text = String::new();
        if kind.head == Head::Plain {
            text += kind.word;
        } else {
            let byte = self.byte();
            machine = usize::from(byte) % MACHINES;
            if matches!(kind.word, "lend" | "slot" | "used") {
                machine |= FREE;
            }
            if kind.word != "fresh" && self.shapes[machine].is_none() {
                let Shape { size, slots } = self.first;
                self.shapes[machine] = Some(self.first);
                lines.push(Line { text: format!("fresh {machine} {size} {slots} 1 1000"), free: false });
            }
            let layer = if byte & 4 == 0 { "w" } else { "s" };
            text += &match kind.head {
                Head::Plain | Head::Machine => format!("{} {machine}", kind.word),
                Head::Call => format!("{machine} {}", kind.word),
                Head::Memory => format!("{machine} {layer}.{}", kind.word),
            };
        }
        if kind.word == "fresh" {
            self.fresh(machine, &mut lines);
            return Some((Some(machine), lines));
        }
        let mut shown = Some(shown);
        let mut last = 0;
        for operand in kind.operands {
            let word = match operand {
                Number => {
                    last = self.number(machine);
                    last.to_string()
                }
                Byte => self.byte().to_string(),
                Flag => self.flag().to_string(),
                Short => self.short().to_string(),
                Id => self.id(machine).to_string(),
                Read => self.known_name(if kind.head == Head::Call && machine < FREE { 2 } else { 4 }).into(),
                Written => self.new_name(2, if machine < FREE { 0 } else { 2 }).into(),
                Given => self.new_name(4, 0).into(),
                Data => self.data(),
                Files => self.files(shown.take().expect("once a line")),
                Room => match self.byte() {
                    0..160 => last.min(MOST_ROOM),
                    160..200 => last.wrapping_sub(1).min(MOST_ROOM),
                    _ => self.number(machine) % MOST_ROOM,
                }
                .to_string(),
                RecordRoom => match self.byte() {
                    0..192 => MOST_RECORDS * RECORD as u64,
                    192..224 => (9 + u64::from(self.byte() % 8)) * RECORD as u64 - u64::from(self.byte() % 2),
                    _ => self.number(machine) % (MOST_RECORDS * RECORD as u64),
                }
                .to_string(),
                PageRoom => {
                    let whole = self.shapes[machine].map_or(0, |shape| shape.size);
                    match self.byte() {
                        0..192 => whole,
                        192..224 => {
                            whole.saturating_sub(u64::from(self.byte() % 8) * PAGE + u64::from(self.byte() % 2))
                        }
                        _ => self.number(machine) % (whole + 2 * PAGE),
                    }
                    .to_string()
                }
                Actions => {
                    let mut words = vec![];
                    for _ in 0..self.byte() % 4 {
                        for i in 0..6 {
                            words.push(if i == 2 { self.flag().into() } else { self.number(machine) }.to_string());
                        }
                    }
                    words.join(" ")
                }
                Lengths => self.lengths(self.shapes[machine].expect("made fresh before")),
                Size | Slots | Version => unreachable!("of fresh alone"),
            };
            if !word.is_empty() {
                write!(text, " {word}").expect("a string takes all");
            }
        }
        lines.push(Line { text, free: false });
        Some(((kind.head != Head::Plain).then_some(machine), lines))
    }

    /// A machine with fewer slots than pages is outside the domain from the start: `used` says so to the oracle.
    fn fresh(&mut self, machine: usize, lines: &mut Vec<Line>) {
        let size = match self.byte() {
            byte @ 0..224 => SIZES[usize::from(byte) % SIZES.len()],
            _ => self.number(machine),
        };
        let pages = (size / PAGE).min(MOST_SLOTS);
        let slots = match self.byte() {
            byte @ 0..128 => pages + u64::from(byte % 2),
            byte => match byte {
                _ if machine < FREE => pages,
                128..224 => u64::from(byte % 8),
                _ => self.number(machine) % MOST_SLOTS,
            },
        };
        let version = match self.byte() {
            byte @ 0..250 => u64::from(byte % 3),
            _ => self.number(machine) & u64::from(u32::MAX),
        };
        let max = self.number(machine);
        let shape = Shape { size, slots };
        self.shapes[machine] = if shape.is_refused() { None } else { Some(shape) };
        lines.push(Line { text: format!("fresh {machine} {size} {slots} {version} {max}"), free: false });
        if slots < pages {
            lines.push(Line { text: format!("used {machine} 0"), free: true });
        }
    }

    /// The Rust stopped at a call on this machine: it is made fresh before the next.
    pub fn stopped(&mut self, machine: usize) {
        self.shapes[machine] = None;
    }

    // ---- words

    pub fn byte(&mut self) -> u8 {
        let Some((first, rest)) = self.bytes.split_first() else { return 0 };
        self.bytes = rest;
        *first
    }

    pub fn short(&mut self) -> u16 {
        u16::from_le_bytes([self.byte(), self.byte()])
    }

    /// `base`, and at most 128 less or 127 more.
    fn near(&mut self, base: u64) -> u64 {
        base.wrapping_add_signed(i64::from(self.byte() as i8))
    }

    pub fn number(&mut self, machine: usize) -> u64 {
        let tag = self.byte();
        let low = u64::from(tag & 31);
        let size = self.shapes[machine].map_or(0, |shape| shape.size);
        let number = match tag {
            0..tag::NEAR_PAGE => tag.into(),
            tag::NEAR_PAGE..tag::NEAR_NAMED => self.near(low * PAGE),
            tag::NEAR_NAMED..tag::NEAR_END => self.near(NAMED[low as usize % NAMED.len()]),
            tag::NEAR_END..tag::SHORT => self.near(size.wrapping_sub(low % 8 * PAGE)),
            tag::SHORT..tag::POWER => self.short().into(),
            tag::POWER..tag::REST => {
                let bits = self.byte();
                (1u64 << (bits & 63)).wrapping_sub((bits >> 6).into())
            }
            // what the number before leaves up to a bound
            tag::REST..tag::PAGES => {
                self.near([size, MAXIMUM, 0, PAGE][usize::from(tag - tag::REST) % 4].wrapping_sub(self.before))
            }
            tag::PAGES..tag::WHOLE => u64::from(tag - tag::PAGES) * PAGE,
            tag::WHOLE.. => u64::from_le_bytes(std::array::from_fn(|_| self.byte())),
        };
        self.before = number;
        number
    }

    pub fn flag(&mut self) -> u8 {
        match self.byte() {
            byte @ 0..192 => byte % 8,
            _ => self.byte(),
        }
    }

    pub fn id(&mut self, machine: usize) -> u64 {
        match self.byte() {
            byte @ 0..240 => 7 + u64::from(byte % 3),
            _ => self.number(machine),
        }
    }

    fn new_name(&mut self, count: u8, first: u8) -> &'static str {
        let name = NAMES[usize::from(first + self.byte() % count)];
        if !self.named.contains(&name) {
            self.named.push(name);
        }
        name
    }

    /// One of the first so many names, that files have where one has.
    fn known_name(&mut self, count: u8) -> &'static str {
        let byte = usize::from(self.byte());
        let all = &NAMES[..count.into()];
        let known: Vec<_> = all.iter().filter(|name| self.named.contains(name)).collect();
        if known.is_empty() { all[byte % all.len()] } else { known[byte % known.len()] }
    }

    /// So many of the bytes of data that are left.
    fn some(&mut self, wanted: u64) -> u64 {
        let count = wanted.min(self.data);
        self.data -= count;
        count
    }

    fn data(&mut self) -> String {
        let tag = self.byte();
        match tag {
            0..64 => {
                let count = self.some(tag.into());
                hex((0..count).map(|_| self.byte()))
            }
            tag::LONG..96 => {
                let wanted = usize::from(self.short()) % MOST_HEX;
                let count = self.some(wanted as u64);
                hex((0..count).map(|_| self.byte()))
            }
            tag::REPEATED..160 => {
                let byte = self.byte();
                let wanted = self.number(0) % MOST_WORD;
                format!("rep:{byte:02x}:{}", self.some(wanted))
            }
            tag::GENERATED.. => {
                let wanted = self.number(0) % MOST_WORD;
                format!("gen:{}:{}", tag - tag::GENERATED, self.some(wanted))
            }
        }
    }

    /// Bytes as they are; records of the form, made here; or a pair of before with some bytes changed.
    fn files(&mut self, shown: impl FnOnce(&str) -> Option<Shown>) -> String {
        match self.byte() {
            tag::RAW..16 => format!("{} {}", self.data(), self.data()),
            16..144 => {
                let (records, pages) = self.records();
                self.changed(records, pages)
            }
            _ => {
                let name = self.known_name(4);
                let (records, length) = shown(name).unwrap_or_default();
                self.changed(records, length / PAGE)
            }
        }
    }

    /// A record file of the form, and how many pages its page file has.
    pub fn records(&mut self) -> (Vec<u8>, u64) {
        let version = match self.byte() {
            0..192 => 1,
            byte => u64::from(byte % 4),
        };
        let mut words = vec![1, version];
        words.extend((0..4).map(|_| self.number(0)));
        let seed = self.byte();
        for first in (0..REGISTERS).step_by(4) {
            words.extend([2, first]);
            words.extend((first..first + 4).map(|i| i.wrapping_mul(u64::from(seed))));
        }
        let (sources, dirty) = (self.byte() % 4, self.byte() % 4);
        for _ in 0..sources {
            words.extend([3, self.number(0), self.flag().into(), self.id(0), self.number(0), self.number(0)]);
        }
        let mut place = 0;
        for _ in 0..dirty {
            let pages = u64::from(self.byte() % 4);
            words.extend([4, self.number(0), self.flag().into(), pages, place, 0]);
            place += pages;
        }
        (words.into_iter().flat_map(u64::to_le_bytes).collect(), place)
    }

    /// A record file with some changes, and a page file of so many pages.
    fn changed(&mut self, mut records: Vec<u8>, pages: u64) -> String {
        self.change(&mut records);
        let length = match self.byte() {
            0..224 => pages.min(MOST_PAGES) * PAGE,
            _ => self.number(0) % MOST_WORD,
        };
        let seed = self.byte();
        format!("{} gen:{seed}:{length}", hex(records.into_iter()))
    }

    /// Up to three changes of a record file: a byte of it, or its length.
    pub fn change(&mut self, records: &mut Vec<u8>) {
        for _ in 0..self.byte() % 4 {
            let (how, at) = (self.byte(), usize::from(self.short()));
            let whole = records.len() / RECORD;
            match how {
                0..192 => {
                    let (by, length) = (self.byte(), records.len());
                    if let Some(byte) = records.get_mut(at % length.max(1)) {
                        *byte = byte.wrapping_add(by);
                    }
                }
                192..208 => records.truncate(at % (records.len() + 1)),
                208..232 => records.truncate(at % (whole + 1) * RECORD),
                // one more record like one of before
                _ if whole > 0 && records.len() < MOST_HEX => {
                    let from = at % whole * RECORD;
                    records.extend_from_within(from..from + RECORD);
                }
                _ => {}
            }
        }
    }

    fn lengths(&mut self, shape: Shape) -> String {
        if self.byte() % 4 == 0 {
            return String::new();
        }
        let pages = shape.pages();
        let mut words = vec![];
        for right in [pages, pages, 3 * pages, shape.slots * PAGE] {
            let length = match self.byte() {
                0..176 => right,
                176..208 => right + 1,
                208..224 => right.saturating_sub(1),
                _ => self.number(0) % (2 * MOST_WORD),
            };
            words.push(length.to_string());
        }
        words.join(" ")
    }
}

fn kind_of(byte: u8) -> &'static Kind {
    let mut left = byte;
    for kind in &KINDS {
        match left.checked_sub(kind.weight) {
            Some(rest) => left = rest,
            None => return kind,
        }
    }
    unreachable!("the weights' sum is 256")
}

fn hex(bytes: impl Iterator<Item = u8>) -> String {
    let digits: String = bytes.map(|byte| format!("{byte:02x}")).collect();
    if digits.is_empty() { "-".into() } else { digits }
}
