//! Sessions on twins: machine 0 is called at random and kept sound, then stopped. Its snapshot is resumed on a fresh
//! machine, and from there on every call is given to both, 0 first. Where they are sound later on, one of them is
//! stopped in its turn and a third goes on with them.
//!
//! `# together N` stands where each N lines that ask begin to be one call, on N machines.
//!
//! To know what is sound, what machine 0 holds is followed here: bytes, flags, tracking, pc and pending pc.

use super::{Action, DIRTY, Generator, MAXIMUM, PAGE, Record, Shape, TOP, Theme};
use std::collections::HashMap;
use std::rc::Rc;

const FROZEN: u8 = 1;
const EXECUTABLE: u8 = 2;
const DIRTY_BIT: u8 = DIRTY as u8;
/// The most machines that go on together.
const MOST: usize = 3;
/// An item of zeros: what it gives are the bytes of pages that were never stored to.
const ZEROS: u64 = 30;

/// What is called on a machine that shall stay sound. Calls after which it would not be are left out.
const KEEPING: Theme = &[
    (8, Generator::store_word),
    (5, Generator::store_bytes),
    (3, Generator::store_byte),
    (5, Generator::scattered),
    (8, Generator::context),
    (3, Generator::corrected),
    (8, Generator::program),
    (7, Generator::tracked_again),
    (3, Generator::pieces),
    (3, Generator::zeros),
    (3, Generator::init_pages),
    (5, Generator::flag),
    (1, Generator::executable),
    (1, Generator::straddling),
    (1, Generator::frozen),
    (2, Generator::untrack),
    (2, Generator::track),
    (1, Generator::mark),
    (2, Generator::load_word),
    (1, Generator::load_bytes),
    (1, Generator::execute_load),
    (1, Generator::c_string),
    (1, Generator::load_data),
    (2, Generator::register),
    (3, Generator::pc),
    (2, Generator::cycles),
    (2, Generator::reservation),
    (2, Generator::snapshot),
    (1, Generator::resume),
    (1, Generator::gone_back),
    (1, Generator::good_file),
];

/// What leaves clean tracked pages.
const TRACKING: Theme = &[
    (3, Generator::context),
    (4, Generator::program),
    (4, Generator::tracked_again),
    (3, Generator::pieces),
    (1, Generator::zeros),
    (1, Generator::corrected),
];

/// What is called on machines that go on together: any call but those that clear the dirty flag directly or make
/// something fresh.
const TOGETHER: Theme = &[
    (6, Generator::store_word),
    (4, Generator::store_bytes),
    (3, Generator::store_byte),
    (3, Generator::scattered),
    (4, Generator::load_word),
    (2, Generator::load_bytes),
    (2, Generator::execute_load),
    (2, Generator::c_string),
    (4, Generator::init_pages),
    (6, Generator::flag),
    (2, Generator::executable),
    (2, Generator::straddling),
    (2, Generator::frozen),
    (4, Generator::track),
    (2, Generator::neighbours),
    (3, Generator::untrack),
    (5, Generator::context),
    (3, Generator::corrected),
    (3, Generator::program),
    (3, Generator::tracked_again),
    (2, Generator::pieces),
    (1, Generator::zeros),
    (2, Generator::mark),
    (1, Generator::load_data),
    (2, Generator::register),
    (2, Generator::pc),
    (2, Generator::cycles),
    (2, Generator::reservation),
    (4, Generator::snapshot),
    (3, Generator::resume),
    (3, Generator::gone_back),
    (1, Generator::record_file),
    (1, Generator::good_file),
];

// ---- what the machines hold

#[derive(Default)]
pub(super) struct Twins {
    sources: Vec<u8>,
    /// The items that are made from a seed: seed, start, length.
    made: Vec<[u64; 3]>,
    pairs: HashMap<String, Pair>,
    /// The pairs that a snapshot of this session was written to.
    written: Vec<String>,
    held: Held,
    /// Only calls that leave it sound are given.
    keep: bool,
    /// The last snapshot into the pairs `m` was done.
    pub(super) snapped: bool,
}

/// A record file and a page file, as far as what is held hangs on them.
#[derive(Clone, Default)]
struct Pair {
    in_form: bool,
    version: u64,
    pc: u64,
    source_runs: Vec<Record>,
    dirty_runs: Vec<Record>,
    pages: Vec<u8>,
}

#[derive(Clone, Default)]
struct Held {
    pages: Vec<Page>,
    version: u64,
    pc: u64,
    pending: u64,
}

#[derive(Clone, Default)]
struct Page {
    /// None for zeros.
    bytes: Option<Rc<[u8; PAGE as usize]>>,
    flag: u8,
    /// Where it is tracked: id, offset, flag.
    entry: Option<(u64, u64, u8)>,
}

struct Sources<'a> {
    bytes: &'a [u8],
    entries: &'a [[u64; 3]],
}

impl<'a> Sources<'a> {
    /// The first byte of the item and its length, where it is there.
    fn item(&self, id: u64) -> Option<(u64, u64)> {
        let &[_, start, length] = self.entries.iter().find(|entry| entry[0] == id)?;
        let end = start.checked_add(length)?;
        (end <= self.bytes.len() as u64).then_some((start, length))
    }

    /// The data, and the full length that remains.
    fn load(&self, id: u64, offset: u64, wanted: u64) -> Option<(&'a [u8], u64)> {
        let (start, length) = self.item(id)?;
        let full = length.checked_sub(offset)?;
        let first = start + offset;
        Some((&self.bytes[first as usize..(first + full.min(wanted)) as usize], full))
    }
}

fn step(x: u64) -> u64 {
    x.wrapping_mul(6_364_136_223_846_793_005).wrapping_add(1_442_695_040_888_963_407)
}

/// The bytes that a word of the script names.
fn bytes_of(word: &str) -> Vec<u8> {
    if word == "-" {
        return vec![];
    }
    let parts: Vec<&str> = word.split(':').collect();
    match parts[..] {
        ["rep", byte, length] => vec![u8::from_str_radix(byte, 16).unwrap(); length.parse().unwrap()],
        ["gen", seed, length] => {
            let mut x: u64 = seed.parse().unwrap();
            let made = (0..length.parse::<usize>().unwrap()).map(|_| {
                x = step(x);
                (x >> 56) as u8
            });
            made.collect()
        }
        _ => (0..word.len() / 2).map(|i| u8::from_str_radix(&word[2 * i..2 * i + 2], 16).unwrap()).collect(),
    }
}

/// First and last page, where there are any.
fn page_indices(address: u64, size: u64) -> Option<(u64, u64)> {
    let end = address.checked_add(size)?;
    (size > 0 && end <= MAXIMUM).then(|| (address / PAGE, (end - 1) / PAGE))
}

impl Twins {
    /// A line that sets something up.
    pub(super) fn meet(&mut self, line: &str) {
        let words: Vec<&str> = line.split(' ').collect();
        match words[..] {
            ["source", _, bytes] => {
                let made = bytes_of(bytes);
                if let Some(rest) = bytes.strip_prefix("gen:") {
                    let seed = rest.split(':').next().unwrap().parse().unwrap();
                    self.made.push([seed, self.sources.len() as u64, made.len() as u64]);
                }
                self.sources.extend(made);
            }
            ["file", name, records, pages] => {
                self.pairs.insert(name.into(), Pair::read(&bytes_of(records), bytes_of(pages)));
            }
            _ => {}
        }
    }

    pub(super) fn snapshot(&mut self, name: String, room: u64, page_room: u64) {
        let pair = self.held.snapshot();
        let records = 9 + (pair.source_runs.len() + pair.dirty_runs.len()) as u64;
        let done = records * 48 <= room && pair.pages.len() as u64 <= page_room;
        if name.starts_with('m') {
            self.snapped = done;
        }
        if done {
            self.written.push(name.clone());
            self.pairs.insert(name, pair);
        }
    }

    /// A word for so many source bytes from a place on.
    fn word_of(&self, place: u64, length: u64) -> String {
        if length == 0 {
            return "-".into();
        }
        let whole = |made: &&[u64; 3]| made[1] <= place && place + length <= made[1] + made[2];
        match self.made.iter().find(whole) {
            Some(&[seed, start, _]) => {
                let seed = (start..place).fold(seed, |x, _| step(x));
                format!("gen:{seed}:{length}")
            }
            None if self.sources[place as usize..(place + length) as usize].iter().all(|&byte| byte == 0) => {
                format!("rep:00:{length}")
            }
            None => super::hex(&self.sources[place as usize..(place + length) as usize]),
        }
    }
}

impl Pair {
    fn read(file: &[u8], pages: Vec<u8>) -> Self {
        let word = |bytes: &[u8]| u64::from_le_bytes(bytes.try_into().unwrap());
        let records: Vec<Record> =
            file.chunks_exact(48).map(|record| std::array::from_fn(|i| word(&record[8 * i..8 * i + 8]))).collect();
        let mut in_form = file.len() % 48 == 0 && (9..=1033).contains(&records.len());
        let mut pair = Pair { pages, ..Pair::default() };
        let mut place: u64 = 0;
        for (i, &record) in records.iter().enumerate() {
            let [kind, second, third, fourth, fifth, sixth] = record;
            in_form &= match (i, kind) {
                (0, 1) => {
                    (pair.version, pair.pc) = (second, third);
                    second < 1 << 32
                }
                (1..=8, 2) => second == 4 * (i as u64 - 1),
                (9.., 3) => {
                    pair.source_runs.push(record);
                    third <= 255 && pair.dirty_runs.is_empty()
                }
                (9.., 4) => {
                    pair.dirty_runs.push(record);
                    let at = place;
                    let (sum, over) = place.overflowing_add(fourth);
                    place = sum;
                    third <= 255 && fifth == at && sixth == 0 && !over
                }
                _ => false,
            };
        }
        pair.in_form = in_form && place.checked_mul(PAGE) == Some(pair.pages.len() as u64);
        pair
    }
}

impl Page {
    fn is(&self, bytes: &[u8]) -> bool {
        match &self.bytes {
            Some(held) => held[..] == *bytes,
            None => bytes.len() as u64 == PAGE && bytes.iter().all(|&byte| byte == 0),
        }
    }

    fn is_blank(&self) -> bool {
        self.flag == 0
            && self.entry.is_none()
            && self.bytes.as_ref().is_none_or(|held| held.iter().all(|&byte| byte == 0))
    }

    fn is_dirty(&self) -> bool {
        self.flag & DIRTY_BIT != 0
    }

    /// Tracked, its source giving exactly its bytes.
    fn is_given(&self, sources: &Sources) -> bool {
        self.entry.and_then(|(id, offset, _)| sources.load(id, offset, PAGE)).is_some_and(|(data, _)| self.is(data))
    }

    fn is_sound(&self, sources: &Sources) -> bool {
        let as_recorded = self.entry.is_some_and(|(_, _, flag)| flag == self.flag);
        self.is_dirty() || self.is_blank() || (as_recorded && self.is_given(sources))
    }
}

impl Held {
    fn fresh(shape: Shape) -> Self {
        Self { pages: vec![Page::default(); shape.pages() as usize], version: shape.version, pc: 0, pending: 0 }
    }

    fn size(&self) -> u64 {
        self.pages.len() as u64 * PAGE
    }

    /// Document 01's Sound.
    fn is_sound(&self, sources: &Sources) -> bool {
        self.pages.iter().all(|page| page.is_sound(sources))
    }

    fn page(&mut self, number: u64) -> Option<&mut Page> {
        self.pages.get_mut(usize::try_from(number).ok()?)
    }

    fn snapshot(&self) -> Pair {
        let mut pair = Pair { in_form: true, version: self.version, pc: self.pc, ..Pair::default() };
        for (address, page) in (0..).step_by(PAGE as usize).zip(&self.pages) {
            if page.is_dirty() {
                let flag = page.flag.into();
                match pair.dirty_runs.last_mut() {
                    Some(run) if run[1] + run[3] * PAGE == address && run[2] == flag => run[3] += 1,
                    _ => pair.dirty_runs.push([4, address, flag, 1, pair.pages.len() as u64 / PAGE, 0]),
                }
                let zeros = [0; PAGE as usize];
                pair.pages.extend_from_slice(page.bytes.as_deref().unwrap_or(&zeros));
            } else if let Some((id, offset, flag)) = page.entry {
                match pair.source_runs.last_mut() {
                    Some(&mut [_, from, of, item, at, ref mut length])
                        if from + *length == address
                            && of == flag.into()
                            && item == id
                            && at.checked_add(*length) == Some(offset) =>
                    {
                        *length += PAGE;
                    }
                    _ => pair.source_runs.push([3, address, flag.into(), id, offset, PAGE]),
                }
            }
        }
        pair
    }

    // Each of these is false where the call refuses, and leaves what it leaves then.

    /// A store on the sparse memory.
    fn put(&mut self, address: u64, length: u64, byte: impl Fn(u64) -> u8) -> bool {
        let mut done = 0;
        while done < length {
            let at = address.wrapping_add(done);
            let Some(page) = self.page(at / PAGE) else {
                return false;
            };
            let (from, part) = (at % PAGE, (PAGE - at % PAGE).min(length - done));
            let held = Rc::make_mut(page.bytes.get_or_insert_with(|| Rc::new([0; PAGE as usize])));
            for i in 0..part {
                held[(from + i) as usize] = byte(done + i);
            }
            page.flag |= DIRTY_BIT;
            done += part;
        }
        true
    }

    fn store(&mut self, address: u64, bytes: &[u8]) -> bool {
        self.put(address, bytes.len() as u64, |i| bytes[i as usize])
    }

    /// What the W^X memory asks before a store.
    fn writable(&mut self, address: u64, length: u64) -> bool {
        length == 0
            || page_indices(address, length).is_some_and(|(first, last)| {
                (first..=last).all(|page| self.page(page).is_some_and(|page| page.flag & EXECUTABLE == 0))
            })
    }

    fn store_checked(&mut self, address: u64, bytes: &[u8]) -> bool {
        self.writable(address, bytes.len() as u64) && self.store(address, bytes)
    }

    fn fill_page_data(&mut self, address: u64, size: u64, lead: u64, source: &[u8]) -> bool {
        let lead = lead.min(size);
        let source = &source[..(source.len() as u64).min(size - lead) as usize];
        let written = lead + source.len() as u64;
        self.put(address, lead, |_| 0)
            && self.store(address.wrapping_add(lead), source)
            && self.put(address.wrapping_add(written), size - written, |_| 0)
    }

    /// What the W^X memory does before the fill.
    fn flags_of_pages(&mut self, address: u64, size: u64, flags: u8, lead: u64) -> bool {
        let memory = self.size();
        let whole = address % PAGE == 0 && size % PAGE == 0;
        if !whole || address > memory || size > memory || address + size > memory || lead > size {
            return false;
        }
        for page in address / PAGE..(address + size) / PAGE {
            let page = &mut self.pages[page as usize];
            if page.flag & FROZEN != 0 {
                return false;
            }
            page.flag |= flags;
        }
        true
    }

    fn set_flag(&mut self, page: u64, flag: u8) -> bool {
        self.page(page).map(|page| page.flag |= flag).is_some()
    }

    fn track(&mut self, start: u64, length: u64, id: u64, offset: u64) -> bool {
        let head = start.wrapping_neg() % PAGE;
        if length < head {
            return true;
        }
        let (Some(mut at), Some(mut offset)) = (start.checked_add(head), offset.checked_add(head)) else {
            return false;
        };
        for _ in 0..(length - head) / PAGE {
            let (Some(page), Some(next)) = (self.page(at / PAGE), offset.checked_add(PAGE)) else {
                return false;
            };
            page.flag &= !DIRTY_BIT;
            page.entry = Some((id, offset, page.flag));
            (at, offset) = (at + PAGE, next);
        }
        true
    }

    fn untrack(&mut self, start: u64, length: u64) -> bool {
        if length == 0 {
            return true;
        }
        let Some((first, last)) = page_indices(start, length) else {
            return false;
        };
        (first..=last).all(|page| {
            let page = self.page(page);
            page.map(|page| (page.flag, page.entry) = (page.flag | DIRTY_BIT, None)).is_some()
        })
    }

    fn context(&mut self, sources: &Sources, [address, id, offset, wanted, size_address]: [u64; 5]) -> bool {
        let Some((data, full)) = sources.load(id, offset, wanted) else {
            return false;
        };
        let length = data.len() as u64;
        self.store_checked(size_address, &full.to_le_bytes())
            && self.untrack(address, length)
            && self.store_checked(address, data)
            && self.track(address, length, id, offset)
    }

    fn mark(&mut self, id: u64, offset: u64, actions: &[u64]) -> bool {
        actions.chunks_exact(6).all(|action| {
            let &[address, size, _, start, end, lead] = action else { unreachable!() };
            let (Some(from), Some(source), Some(room), Some(place)) =
                (address.checked_add(lead), end.checked_sub(start), size.checked_sub(lead), offset.checked_add(start))
            else {
                return false;
            };
            self.track(from, source.min(room), id, place)
        })
    }

    fn resume(&mut self, sources: &Sources, pair: &Pair) -> bool {
        if !pair.in_form || pair.version != self.version {
            return false;
        }
        for page in &mut self.pages {
            page.entry = None;
        }
        (self.pc, self.pending) = (pair.pc, pair.pc);
        let whole = |address: u64, data: &[u8]| address % PAGE == 0 && data.len() as u64 % PAGE == 0;
        for &[_, address, flag, id, offset, wanted] in &pair.source_runs {
            let Some((data, _)) = sources.load(id, offset, wanted) else {
                return false;
            };
            let length = data.len() as u64;
            let done = whole(address, data)
                && self.store_checked(address, data)
                && (0..length / PAGE).all(|i| self.set_flag(address / PAGE + i, flag as u8))
                && self.track(address, length, id, offset);
            if !done {
                return false;
            }
        }
        pair.dirty_runs.iter().all(|&[_, address, flag, pages, place, _]| {
            let data = &pair.pages[(place * PAGE) as usize..((place + pages) * PAGE) as usize];
            whole(address, data)
                && self.store_checked(address, data)
                && (0..pages).all(|i| self.set_flag(address / PAGE + i, flag as u8))
        })
    }

    /// A call by its words.
    fn give(&mut self, words: &[&str], sources: &Sources, pairs: &HashMap<String, Pair>) {
        let number = |i: usize| -> u64 { words[i].parse().unwrap() };
        match words[0] {
            "s.store_bytes" => self.store(number(1), &bytes_of(words[2])),
            "w.store_bytes" => self.store_checked(number(1), &bytes_of(words[2])),
            "s.store_byte" => self.put(number(1), number(2), |_| number(3) as u8),
            "w.store_byte" => {
                self.writable(number(1), number(2)) && self.put(number(1), number(2), |_| number(3) as u8)
            }
            "s.store8" | "s.store16" | "s.store32" | "s.store64" => {
                let bits: usize = words[0][7..].parse().unwrap();
                self.store(number(1), &number(2).to_le_bytes()[..bits / 8])
            }
            "w.store8" | "w.store16" | "w.store32" | "w.store64" => {
                let bits: usize = words[0][7..].parse().unwrap();
                self.store_checked(number(1), &number(2).to_le_bytes()[..bits / 8])
            }
            "s.init_pages" => self.fill_page_data(number(1), number(2), number(4), &bytes_of(words[5])),
            "w.init_pages" => {
                self.flags_of_pages(number(1), number(2), number(3) as u8, number(4))
                    && self.fill_page_data(number(1), number(2), number(4), &bytes_of(words[5]))
            }
            "set_flag" => self.set_flag(number(1), number(2) as u8),
            "clear_flag" => self.page(number(1)).map(|page| page.flag &= !(number(2) as u8)).is_some(),
            "track" => self.track(number(1), number(2), number(3), number(4)),
            "untrack" => self.untrack(number(1), number(2)),
            "context" => self.context(sources, std::array::from_fn(|i| number(i + 1))),
            "mark" => {
                let actions: Vec<u64> = (3..words.len()).map(number).collect();
                self.mark(number(1), number(2), &actions)
            }
            "update_pc" => {
                self.pending = number(1);
                true
            }
            "commit_pc" => {
                self.pc = self.pending;
                true
            }
            "resume" => self.resume(sources, &pairs[words[1]]),
            // loads and the other numbers of a machine
            _ => true,
        };
    }
}

// ---- sessions

impl Generator {
    /// Whether the call may be given to the machines of `on`. Where it may, it is done on what they hold.
    pub(super) fn admitted(&mut self, words: &str) -> bool {
        let Some(twins) = &mut self.twins else {
            return true;
        };
        let words: Vec<&str> = words.split(' ').collect();
        if self.on.len() > 1 && words[0] == "clear_flag" && words[2].parse::<u64>().unwrap() & DIRTY != 0 {
            return false;
        }
        let sources = Sources { bytes: &twins.sources, entries: &self.entries };
        let mut after = twins.held.clone();
        after.give(&words, &sources, &twins.pairs);
        let given = !twins.keep || after.is_sound(&sources);
        if given {
            twins.held = after;
        }
        given
    }

    /// What the machines hold, and the sources.
    fn held(&self) -> (&Held, Sources<'_>) {
        let twins = self.twins.as_ref().unwrap();
        (&twins.held, Sources { bytes: &twins.sources, entries: &self.entries })
    }

    fn is_sound(&self) -> bool {
        let (held, sources) = self.held();
        held.is_sound(&sources)
    }

    pub(super) fn more_sources(&mut self) {
        self.set_up(format!("source {ZEROS} rep:00:{}", 3 * PAGE));
        self.entries.push([ZEROS, self.source_length, 3 * PAGE]);
        self.source_length += 3 * PAGE;
        for k in 0..MOST {
            self.set_up(format!("file h{k} - -"));
        }
    }

    fn together(&mut self, machines: usize) {
        self.set_up(format!("# together {machines}"));
    }

    pub(super) fn twins_session(&mut self) {
        if self.random.one_in(6) {
            self.another_source();
        }
        let shape = self.twins_shape();
        self.together(1);
        self.fresh(0, shape);
        self.on = vec![0];
        let twins = self.twins.as_mut().unwrap();
        twins.held = Held::fresh(shape);
        twins.written.clear();
        let calls = self.random.between(0, 40);
        self.some_calls(true, KEEPING, calls);
        self.hand_over(shape);
        for _ in 0..self.random.between(1, 4) {
            let keep = self.is_sound() && self.random.one_in(2);
            let calls = self.random.between(3, 30);
            self.some_calls(keep, if keep { KEEPING } else { TOGETHER }, calls);
            if self.on.len() < MOST && self.is_sound() && !self.random.one_in(4) {
                self.hand_over(shape);
            }
        }
        self.snapshot_into(shape, false);
        self.show();
        self.call("dump");
    }

    /// Machines of 0 pages to the most, small ones more often.
    fn twins_shape(&mut self) -> Shape {
        let pages = match self.random.below(100) {
            0 => 0,
            1..=5 => 1,
            6..=12 => 2,
            13..=55 => self.random.between(3, 8),
            56..=85 => self.random.between(6, 16),
            86..=96 => self.random.between(17, 40),
            97 | 98 => 64,
            _ => self.random.pick(&[128, 1023, 1024]),
        };
        let slots = if self.random.one_in(4) { pages + self.random.between(1, 5) } else { pages };
        Shape { size: pages * PAGE, slots, version: self.random.pick(&[0, 1, 2, 4_294_967_295]) }
    }

    fn some_calls(&mut self, keep: bool, theme: Theme, calls: u64) {
        self.twins.as_mut().unwrap().keep = keep;
        for _ in 0..calls {
            self.some_call(theme);
            if self.on.len() > 1 && self.random.one_in(12) {
                self.call("dump");
            }
        }
        self.twins.as_mut().unwrap().keep = false;
    }

    /// One of the machines, sound as they are, is stopped and goes on on one more as well.
    fn hand_over(&mut self, shape: Shape) {
        if self.random.one_in(2) {
            let calls = self.random.between(2, 8);
            self.some_calls(true, TRACKING, calls);
        }
        let (held, _) = self.held();
        if held.pc != held.pending {
            self.call("commit_pc");
        }
        let (first, second) = (self.random.pick(&self.on.clone()), self.on.len());
        let together = std::mem::replace(&mut self.on, vec![first]);
        self.together(1);
        self.snapshot_named("h", shape, false);
        self.answered(format!("show h{first}"));
        self.fresh(second, shape);
        self.answered(format!("{second} resume h{first}"));
        self.on = together;
        self.on.push(second);
        self.together(self.on.len());
        for words in ["raw", "dump", "pc", "version", "cycles", "max_cycles", "lr", "register 0", "register 31"] {
            self.call(words);
        }
        let number = self.random.below(32);
        self.call(&format!("register {number}"));
    }

    // ---- calls that leave clean tracked pages

    /// A pair of files that was written before, mostly in this session.
    pub(super) fn kept_pair(&mut self) -> String {
        let written = &self.twins.as_ref().unwrap().written;
        let at = self.random.below(written.len() as u64) as usize;
        match (self.random.below(14), written.get(at)) {
            (4.., Some(name)) => name.clone(),
            (0, _) => "made".into(),
            (which, _) => format!("{}{}", ["m", "n", "h"][which as usize % 3], self.random.below(MOST as u64)),
        }
    }

    /// The same where no executable page stands in its way.
    fn gone_back(&mut self) {
        let Shape { size, .. } = self.here();
        if size > 64 * PAGE {
            return self.resume();
        }
        if self.random.one_in(2) {
            self.call(&format!("untrack 0 {size}"));
        }
        for page in 0..size / PAGE {
            if self.held().0.pages[page as usize].flag & EXECUTABLE != 0 {
                self.call(&format!("clear_flag {page} {EXECUTABLE}"));
            }
        }
        self.resume();
    }

    /// Some pages of the machine side by side: the first, and how many.
    fn some_pages(&mut self, most: u64) -> Option<(u64, u64)> {
        let pages = self.here().pages();
        if pages == 0 {
            return None;
        }
        let count = self.random.between(1, pages.min(most));
        Some((self.random.below(pages - count + 1), count))
    }

    /// Stores to pages here and there, not ascending.
    fn scattered(&mut self) {
        let pages = self.here().pages();
        for _ in 0..self.random.between(2, 6) {
            let address = self.random.below(pages) * PAGE + self.random.below(PAGE);
            let (layer, bits, value) = (self.layer(), self.random.pick(&[8, 16, 32, 64]), self.number());
            self.call(&format!("{layer}.store{bits} {address} {value}"));
        }
    }

    /// A program is loaded: pages are filled with parts of an item, and then marked.
    fn program(&mut self) {
        let id = self.random.pick(&[1, 2, TOP, 7, 20, 20, 26, ZEROS]);
        let Some((item, length)) = self.held().1.item(id) else {
            return;
        };
        let offset = self.random.pick(&[0, 0, 0, 100, PAGE]).min(length);
        let mut actions: Vec<Action> = vec![];
        for _ in 0..self.random.between(1, 2) {
            let Some((first, count)) = self.some_pages(4) else {
                return;
            };
            let (address, size) = (first * PAGE, count * PAGE);
            let any = self.random.below(size + 1);
            let lead = self.random.pick(&[0, 0, 0, 0, PAGE.min(size), any]);
            let left = length - offset;
            let start = self.random.pick(&[0, 0, PAGE, 2 * PAGE, 5]).min(left);
            let any = self.random.below(size + 1);
            let end = (start + self.random.pick(&[size - lead, size - lead, PAGE, size + 9, any])).min(left);
            let flags = self.random.pick(&[0, 0, 2, 2, 3, 1, 8, 130]);
            let room = (end - start).min(size - lead);
            let bytes = self.twins.as_ref().unwrap().word_of(item + offset + start, room);
            let layer = self.random.pick(&["w", "w", "w", "s"]);
            self.call(&format!("{layer}.init_pages {address} {size} {flags} {lead} {bytes}"));
            actions.push([address, size, flags, start, end, lead]);
        }
        if self.random.one_in(8) {
            self.store_word();
        }
        let words: Vec<String> = actions.iter().flatten().map(u64::to_string).collect();
        self.call(&format!("mark {id} {offset} {}", words.join(" ")));
    }

    /// Pages whose sources give their bytes are untracked, their flags changed, and tracked again, each by itself and
    /// by any item that has these bytes: runs that merge and runs that do not.
    fn tracked_again(&mut self) {
        let (held, sources) = self.held();
        let given: Vec<u64> =
            (0..).zip(&held.pages).filter(|(_, page)| page.is_given(&sources)).map(|(i, _)| i).collect();
        if given.is_empty() {
            return self.context();
        }
        let first = self.random.pick(&given);
        let end = (first + self.random.between(1, 4)).min(self.here().pages());
        let mut again = vec![];
        for page in first..end {
            let (held, sources) = self.held();
            let Some((id, offset, _)) = held.pages[page as usize].entry else {
                break;
            };
            let Some(place) = sources.item(id).and_then(|(start, _)| start.checked_add(offset)) else {
                break;
            };
            let same: Vec<(u64, u64)> = self
                .entries
                .iter()
                .filter_map(|&[id, _, _]| {
                    let (start, length) = sources.item(id)?;
                    let offset = place.checked_sub(start)?;
                    (offset.checked_add(PAGE)? <= length).then_some((id, offset))
                })
                .collect();
            let other = if same.is_empty() { (id, offset) } else { self.random.pick(&same) };
            again.push((page, if self.random.one_in(3) { other } else { (id, offset) }));
        }
        let flag = self.random.pick(&[1, 2, 2, 3, 8]);
        let change = self.random.below(6);
        for (page, (id, offset)) in again {
            let address = page * PAGE;
            self.call(&format!("untrack {address} {PAGE}"));
            match change {
                0 => self.call(&format!("set_flag {page} {flag}")),
                1 => self.call(&format!("clear_flag {page} {flag}")),
                2 if self.random.one_in(2) => self.call(&format!("set_flag {page} {flag}")),
                3 if self.random.one_in(2) => self.call(&format!("clear_flag {page} 251")),
                _ => {}
            }
            if !self.random.one_in(6) {
                self.call(&format!("track {address} {PAGE} {id} {offset}"));
            }
        }
    }

    /// Pages side by side, each stored from an item and tracked by itself, so that each condition of merging decides
    /// by itself.
    fn pieces(&mut self) {
        let Some((first, count)) = self.some_pages(5) else {
            return;
        };
        let items = [1, 2, TOP, 7, 20];
        let (mut id, mut offset) = (self.random.pick(&items), 0);
        let flag = self.random.pick(&[0, 0, 1, 2, 8]);
        for page in first..first + count {
            match self.random.below(12) {
                0 => id = self.random.pick(&items),
                1 => offset += PAGE,
                2 => offset = offset.saturating_sub(PAGE),
                3 => offset += self.random.below(9),
                // the offsets go on over a page that is left as it was
                4 => continue,
                _ => {}
            }
            let Some((start, length)) = self.held().1.item(id) else {
                return;
            };
            if offset + PAGE > length {
                offset = length % PAGE;
            }
            let (address, bytes) = (page * PAGE, self.twins.as_ref().unwrap().word_of(start + offset, PAGE));
            self.call(&format!("s.store_bytes {address} {bytes}"));
            self.call(&format!("clear_flag {page} 251"));
            if flag != 0 && !self.random.one_in(4) {
                self.call(&format!("set_flag {page} {flag}"));
            }
            self.call(&format!("track {address} {PAGE} {id} {offset}"));
            offset += PAGE;
        }
    }

    /// Pages that were never stored to are dirty without a slot, or tracked by an item of zeros.
    fn zeros(&mut self) {
        let Some((first, count)) = self.some_pages(3) else {
            return;
        };
        let flag = self.random.pick(&[0, 0, 1, 2]);
        for page in first..first + count {
            if flag != 0 || self.random.one_in(2) {
                self.call(&format!("set_flag {page} {}", DIRTY | flag));
            }
        }
        if !self.random.one_in(3) {
            let offset = PAGE * self.random.below(4 - count);
            self.call(&format!("track {} {} {ZEROS} {offset}", first * PAGE, count * PAGE));
        }
    }
}
