//! Random call scripts: `generate SEED CALLS [outside|twins]` writes a script
//! of about CALLS calls. The same arguments give the same bytes everywhere.
//!
//! A script is a row of sessions. A session makes a few machines fresh and
//! calls them at random, with addresses and sizes close to the bounds that
//! the rules speak of. Calls on which the Rust stops dead are foreseen: they
//! are few, and the machine is made fresh soon after. With `outside` the
//! script also lends storage of wrong lengths and few slots, and writes slot
//! numbers; such a script is not for the oracle. With `twins` a session is a
//! handover (twins.rs).

mod twins;

use std::io::Write;
use twins::Twins;

const PAGE: u64 = 4096;
/// The most memory that a machine can have.
const MAXIMUM: u64 = 4_194_304;
const TOP: u64 = u64::MAX;
const DIRTY: u64 = 4;
/// The most calls that are written.
const MOST_CALLS: u64 = 10_000_000;
/// The most directory entries, and source bytes, that a script has.
const MOST_ENTRIES: usize = 60;
const MOST_SOURCE: u64 = 400_000;
/// Of so many answers at most one may be `panic`, and at most one `?`.
const ANSWERS_A_STOP: u64 = 120;
const ANSWERS_A_QUESTION: u64 = 900;

fn main() {
    let words: Vec<String> = std::env::args().skip(1).collect();
    let (seed, calls, mode) = match arguments(&words) {
        Ok(read) => read,
        Err(why) => {
            eprintln!("generate: {why}");
            std::process::exit(2);
        }
    };
    let mut generator = Generator::new(seed, calls, mode);
    let mut out = std::io::stdout().lock();
    let done = generator.script(|text| out.write_all(text.as_bytes()).is_ok());
    if !done || out.flush().is_err() {
        std::process::exit(1);
    }
}

#[derive(Clone, Copy, PartialEq)]
enum Mode {
    Domain,
    Outside,
    Twins,
}

fn arguments(words: &[String]) -> Result<(u64, u64, Mode), String> {
    let usage = "usage: generate SEED CALLS [outside|twins]";
    let mode = match words.len() {
        2 => Mode::Domain,
        3 if words[2] == "outside" => Mode::Outside,
        3 if words[2] == "twins" => Mode::Twins,
        _ => return Err(usage.into()),
    };
    let number = |name: &str, word: &str| -> Result<u64, String> {
        if word.is_empty() || !word.bytes().all(|b| b.is_ascii_digit()) {
            return Err(format!("{name} is not a decimal number; {usage}"));
        }
        word.parse().map_err(|_| format!("{name} is above 2^64-1"))
    };
    let seed = number("SEED", &words[0])?;
    let calls = number("CALLS", &words[1])?;
    if calls > MOST_CALLS {
        return Err(format!("CALLS is above {MOST_CALLS}"));
    }
    Ok((seed, calls, mode))
}

/// splitmix64.
struct Random {
    state: u64,
}

impl Random {
    fn next(&mut self) -> u64 {
        self.state = self.state.wrapping_add(0x9e37_79b9_7f4a_7c15);
        let mut z = self.state;
        z = (z ^ (z >> 30)).wrapping_mul(0xbf58_476d_1ce4_e5b9);
        z = (z ^ (z >> 27)).wrapping_mul(0x94d0_49bb_1331_11eb);
        z ^ (z >> 31)
    }

    /// 0 to n-1; 0 for n = 0.
    fn below(&mut self, n: u64) -> u64 {
        if n == 0 { 0 } else { self.next() % n }
    }

    fn between(&mut self, first: u64, last: u64) -> u64 {
        first + self.below(last - first + 1)
    }

    /// True once in n times.
    fn one_in(&mut self, n: u64) -> bool {
        self.below(n) == 0
    }

    fn pick<T: Copy>(&mut self, from: &[T]) -> T {
        from[self.below(from.len() as u64) as usize]
    }

    /// At most `by` away from x, modulo 2^64.
    fn near(&mut self, x: u64, by: u64) -> u64 {
        x.wrapping_sub(by).wrapping_add(self.below(2 * by + 1))
    }
}

#[derive(Clone, Copy)]
struct Shape {
    size: u64,
    slots: u64,
    version: u64,
}

impl Shape {
    fn pages(self) -> u64 {
        self.size / PAGE
    }
}

#[derive(Clone, Copy)]
enum Machine {
    /// Never made fresh, or not there after a refused fresh.
    Absent,
    There(Shape),
    /// The Rust stopped dead: it answers `panic` until it is fresh again.
    Stopped(Shape),
}

/// How a track ends in the Rust.
#[derive(PartialEq)]
enum Tracked {
    Done,
    Refused,
    Stopped,
}

fn track_ends(size: u64, start: u64, length: u64, offset: u64) -> Tracked {
    let Some(rounded) = start.checked_add(PAGE - 1) else {
        return Tracked::Stopped;
    };
    let mut address = rounded / PAGE * PAGE;
    let head = address - start;
    if length < head {
        return Tracked::Done;
    }
    let Some(mut offset) = offset.checked_add(head) else {
        return Tracked::Stopped;
    };
    let mut left = length - head;
    while left >= PAGE {
        if address >= size {
            return Tracked::Refused;
        }
        let Some(next) = offset.checked_add(PAGE) else {
            return Tracked::Stopped;
        };
        offset = next;
        address += PAGE;
        left -= PAGE;
    }
    Tracked::Done
}

type Action = [u64; 6];

fn mark_stops(size: u64, offset: u64, actions: &[Action]) -> bool {
    for &[address, length, _, start, end, lead] in actions {
        let (Some(from), Some(source), Some(room), Some(place)) =
            (address.checked_add(lead), end.checked_sub(start), length.checked_sub(lead), offset.checked_add(start))
        else {
            return true;
        };
        match track_ends(size, from, source.min(room), place) {
            Tracked::Done => {}
            Tracked::Refused => return false,
            Tracked::Stopped => return true,
        }
    }
    false
}

type Record = [u64; 6];

fn hex(bytes: &[u8]) -> String {
    if bytes.is_empty() {
        return "-".into();
    }
    bytes.iter().map(|b| format!("{b:02x}")).collect()
}

fn record_bytes(records: &[Record]) -> Vec<u8> {
    records.iter().flatten().flat_map(|word| word.to_le_bytes()).collect()
}

/// One kind of calls: writes a line, or a few that belong together.
type Kind = fn(&mut Generator);
type Theme = &'static [(u64, Kind)];

/// Each theme: how often which kind.
const THEMES: [Theme; 5] = [
    &[
        (8, Generator::store_bytes),
        (8, Generator::store_byte),
        (12, Generator::store_word),
        (10, Generator::load_word),
        (4, Generator::execute_load),
        (1, Generator::straddling),
        (6, Generator::load_bytes),
        (5, Generator::c_string),
        (6, Generator::init_pages),
        (4, Generator::flag),
        (2, Generator::reservation),
        (1, Generator::arithmetic),
        (1, Generator::snapshot),
    ],
    &[
        (8, Generator::flag),
        (6, Generator::executable),
        (5, Generator::straddling),
        (7, Generator::frozen),
        (5, Generator::init_pages),
        (6, Generator::store_word),
        (4, Generator::store_bytes),
        (3, Generator::store_byte),
        (5, Generator::execute_load),
        (2, Generator::load_word),
        (2, Generator::context),
        (1, Generator::track),
        (1, Generator::handover),
        (1, Generator::arithmetic),
    ],
    &[
        (7, Generator::track),
        (5, Generator::neighbours),
        (5, Generator::untrack),
        (8, Generator::context),
        (5, Generator::mark),
        (5, Generator::flag),
        (5, Generator::store_word),
        (3, Generator::store_bytes),
        (2, Generator::store_byte),
        (2, Generator::init_pages),
        (3, Generator::load_data),
        (2, Generator::snapshot),
        (2, Generator::handover),
        (1, Generator::load_bytes),
    ],
    &[
        (8, Generator::record_file),
        (4, Generator::resume),
        (3, Generator::snapshot),
        (3, Generator::handover),
        (3, Generator::register),
        (3, Generator::pc),
        (3, Generator::cycles),
        (2, Generator::reservation),
        (4, Generator::context),
        (3, Generator::track),
        (2, Generator::mark),
        (3, Generator::store_word),
        (2, Generator::store_byte),
        (2, Generator::flag),
        (2, Generator::load_data),
        (1, Generator::arithmetic),
    ],
    &[
        (4, Generator::handover),
        (4, Generator::corrected),
        (3, Generator::neighbours),
        (4, Generator::good_file),
        (3, Generator::older),
        (2, Generator::record_file),
        (2, Generator::resume),
        (3, Generator::snapshot),
        (4, Generator::context),
        (3, Generator::track),
        (2, Generator::untrack),
        (2, Generator::mark),
        (3, Generator::flag),
        (4, Generator::store_word),
        (2, Generator::store_bytes),
        (2, Generator::init_pages),
        (2, Generator::register),
        (2, Generator::pc),
        (2, Generator::cycles),
        (1, Generator::reservation),
    ],
];

/// What a machine is called with after a handover, beside the same calls on
/// the machine that was handed over.
const FURTHER: Theme = &[
    (3, Generator::store_word),
    (2, Generator::store_bytes),
    (2, Generator::store_byte),
    (2, Generator::load_word),
    (1, Generator::load_bytes),
    (1, Generator::execute_load),
    (1, Generator::c_string),
    (2, Generator::init_pages),
    (2, Generator::flag),
    (2, Generator::track),
    (2, Generator::untrack),
    (2, Generator::context),
    (1, Generator::mark),
    (1, Generator::register),
    (1, Generator::pc),
    (1, Generator::cycles),
    (1, Generator::reservation),
];

struct Generator {
    random: Random,
    text: String,
    /// Lines so far that are answered; so many are wanted.
    calls: u64,
    wanted: u64,
    stops: u64,
    questions: u64,
    outside: bool,
    machines: [Machine; 10],
    /// The machines that the next calls go to: one, or two that shall stay alike.
    on: Vec<usize>,
    /// The directory: id, start, length.
    entries: Vec<[u64; 3]>,
    source_length: u64,
    /// What the machines of `on` hold, where they are twins.
    twins: Option<Twins>,
}

impl Generator {
    fn new(seed: u64, wanted: u64, mode: Mode) -> Self {
        let said = match mode {
            Mode::Domain => "",
            Mode::Outside => " outside",
            Mode::Twins => " twins",
        };
        Self {
            random: Random { state: seed },
            text: format!("# generate {seed} {wanted}{said}\n"),
            calls: 0,
            wanted,
            stops: 0,
            questions: 0,
            outside: mode == Mode::Outside,
            machines: [Machine::Absent; 10],
            on: vec![0],
            entries: Vec::new(),
            source_length: 0,
            twins: (mode == Mode::Twins).then(Twins::default),
        }
    }

    /// Writes the whole script by `write`, which says whether to go on.
    fn script(&mut self, mut write: impl FnMut(&str) -> bool) -> bool {
        self.first_sources();
        for k in 0..10 {
            self.set_up(format!("file m{k} - -"));
            self.set_up(format!("file n{k} - -"));
        }
        self.set_up("file made - -".into());
        if self.twins.is_some() {
            self.more_sources();
        }
        while self.calls < self.wanted {
            if self.twins.is_some() {
                self.twins_session()
            } else {
                self.session()
            }
            if !write(&self.text) {
                return false;
            }
            self.text.clear();
        }
        write(&self.text)
    }

    fn session(&mut self) {
        if self.random.one_in(6) {
            self.another_source();
        }
        let mut numbers: Vec<usize> = Vec::new();
        let first = self.shape();
        for _ in 0..self.random.between(1, 3) {
            let k = self.random.below(10) as usize;
            if !numbers.contains(&k) {
                numbers.push(k);
                let mut shape = self.shape();
                if !self.random.one_in(4) {
                    shape.version = first.version;
                }
                self.fresh(k, shape);
            }
        }
        let theme = self.random.pick(&THEMES);
        let end = self.wanted.min(self.calls + self.random.between(40, 160));
        while self.calls < end {
            let k = self.random.pick(&numbers);
            self.turn_to(k);
            if self.outside && self.random.one_in(6) {
                self.lending();
            }
            for _ in 0..self.random.between(1, 9) {
                self.some_call(theme);
            }
            if self.random.one_in(2) {
                self.call("dump");
            }
            if self.random.one_in(12) {
                self.question();
            }
        }
        for k in 0..10 {
            if matches!(self.machines[k], Machine::There(_)) && numbers.contains(&k) {
                self.turn_to(k);
                self.call("dump");
            }
        }
    }

    fn some_call(&mut self, theme: Theme) {
        let mut at = self.random.below(theme.iter().map(|&(weight, _)| weight).sum());
        for &(weight, kind) in theme {
            if at < weight {
                return kind(self);
            }
            at -= weight;
        }
    }

    // ---- lines

    fn set_up(&mut self, line: String) {
        if let Some(twins) = &mut self.twins {
            twins.meet(&line);
        }
        self.text.push_str(&line);
        self.text.push('\n');
    }

    fn answered(&mut self, line: String) {
        self.set_up(line);
        self.calls += 1;
    }

    /// The call on each machine of `on`. Twins may not be given every call.
    fn call(&mut self, words: &str) {
        if !self.admitted(words) {
            return;
        }
        for i in 0..self.on.len() {
            self.answered(format!("{} {words}", self.on[i]));
        }
    }

    /// A call that stops the Rust dead where `stops`. It is left out where
    /// there were too many, and the machines are made fresh soon after it.
    fn risky_call(&mut self, words: &str, stops: bool) {
        if !stops || self.outside {
            return self.call(words);
        }
        if !self.may_stop() {
            return;
        }
        self.call(words);
        for i in 0..self.on.len() {
            let k = self.on[i];
            self.stops += 1;
            self.machines[k] = Machine::Stopped(self.shape_of(k));
            if self.random.one_in(4) {
                self.stops += 1;
                self.answered(format!("{k} pc"));
            }
            self.turn_fresh(k);
        }
    }

    fn may_stop(&self) -> bool {
        self.twins.is_none() && (self.stops + 4) * ANSWERS_A_STOP < self.calls
    }

    /// A line whose answer is `?`.
    fn question(&mut self) {
        if (self.questions + 1) * ANSWERS_A_QUESTION > self.calls {
            return;
        }
        self.questions += 1;
        let k = self.on[0];
        let absent = (0..10).find(|&k| matches!(self.machines[k], Machine::Absent));
        let line = match (self.random.below(7), absent) {
            (0, Some(absent)) => format!("{absent} dump"),
            (1, _) => "show nothing".into(),
            (2, _) => format!("{k} resume nothing"),
            (3, _) => format!("{k} set_flag 0 256"),
            (4, _) => format!("{k} w.store_byte 0 1 256"),
            (5, _) => format!("{k} mark 1 0 4096 4096 0 0 4096"),
            _ => format!("{k} w.load128 0"),
        };
        self.answered(line);
    }

    // ---- machines

    fn shape_of(&self, k: usize) -> Shape {
        match self.machines[k] {
            Machine::There(shape) | Machine::Stopped(shape) => shape,
            Machine::Absent => Shape { size: 0, slots: 0, version: 0 },
        }
    }

    /// The shape of the machine that is called now.
    fn here(&self) -> Shape {
        self.shape_of(self.on[0])
    }

    fn turn_to(&mut self, k: usize) {
        self.on = vec![k];
        if !matches!(self.machines[k], Machine::There(_)) {
            self.turn_fresh(k);
        }
    }

    fn turn_fresh(&mut self, k: usize) {
        let shape = match self.machines[k] {
            Machine::Absent => self.shape(),
            _ => self.shape_of(k),
        };
        self.fresh(k, shape);
    }

    fn shape(&mut self) -> Shape {
        let pages = match self.random.below(400) {
            0 => 1024,
            1..=4 => 64,
            5..=20 => 0,
            21..=50 => 1,
            51..=100 => 2,
            101..=240 => 4,
            241..=340 => 8,
            341..=370 => self.random.between(3, 12),
            _ => 16,
        };
        let slots = if self.outside && self.random.one_in(2) {
            self.random.below(pages + 1)
        } else if self.random.one_in(4) {
            pages + self.random.between(1, 5)
        } else {
            pages
        };
        let version = self.random.pick(&[0, 1, 1, 2, 2, 4_294_967_295]);
        Shape { size: pages * PAGE, slots, version }
    }

    fn fresh(&mut self, k: usize, shape: Shape) {
        if self.random.one_in(40) && (self.outside || self.may_stop()) {
            self.bad_fresh(k);
        }
        let maximum = match self.random.below(4) {
            0 => TOP,
            1 => 1000,
            _ => self.number(),
        };
        let Shape { size, slots, version } = shape;
        self.answered(format!("fresh {k} {size} {slots} {version} {maximum}"));
        self.machines[k] = Machine::There(shape);
    }

    /// A memory size that is not whole pages, or above the maximum.
    fn bad_fresh(&mut self, k: usize) {
        let size = match self.random.below(5) {
            0 => 1,
            1 => PAGE * self.random.below(9) + self.random.between(1, PAGE - 1),
            2 => MAXIMUM + PAGE,
            3 => MAXIMUM + 1,
            _ => TOP - PAGE + 1,
        };
        self.answered(format!("fresh {k} {size} 4 1 1000"));
        self.stops += 1;
    }

    // ---- numbers

    /// Any 64-bit number, the edges often.
    fn number(&mut self) -> u64 {
        match self.random.below(8) {
            0 => self.random.below(3),
            1 => TOP - self.random.below(3),
            2 => 1 << self.random.below(64),
            3 => (1u64 << self.random.below(64)) - 1,
            4 => self.random.below(300),
            5 => self.random.below(1 << 32),
            _ => self.random.next(),
        }
    }

    /// A page of the machine; seldom one past it.
    fn page(&mut self) -> u64 {
        let pages = self.here().pages();
        match self.random.below(60) {
            0 => pages,
            1 => pages + self.random.below(3),
            2 => self.random.pick(&[1023, 1024, TOP, 1 << 52, TOP / PAGE]),
            _ => self.random.below(pages),
        }
    }

    fn address(&mut self) -> u64 {
        let size = self.here().size;
        let pages = size / PAGE;
        match self.random.below(40) {
            0..=14 => {
                let edge = self.random.below(pages) * PAGE;
                if edge == 0 { self.random.below(10) } else { self.random.near(edge, 9) }
            }
            15..=20 => self.random.below(pages) * PAGE,
            21..=31 => self.random.below(size),
            32..=35 => self.random.near(size, 9.min(size)),
            36 => self.random.near(size, 2 * PAGE),
            37 => self.random.near(MAXIMUM, 9),
            38 => self.random.near(TOP - 4, 9),
            _ => self.random.pick(&[TOP - PAGE + 1, TOP - PAGE + 2, MAXIMUM - PAGE, 1 << 63, size]),
        }
    }

    /// A size for a call at the address, close to what bounds it.
    fn size_at(&mut self, address: u64) -> u64 {
        let size = self.here().size;
        let edge = PAGE - address % PAGE;
        match self.random.below(24) {
            0 => 0,
            1..=3 => self.random.between(1, 2),
            4..=8 => self.random.below(24),
            9 | 10 => edge,
            11 => edge + 1,
            12 => edge - 1,
            13..=15 => self.random.between(1, 3) * PAGE,
            16 => edge + PAGE * self.random.between(1, 2) + self.random.below(3),
            17 | 18 => size.saturating_sub(address),
            19 => size.saturating_sub(address) + 1,
            20 => MAXIMUM.saturating_sub(address) + self.random.below(2),
            21 => (TOP - address).saturating_add(self.random.below(3)),
            22 => self.random.below(3 * PAGE),
            _ => self.number(),
        }
    }

    /// Some bytes, so many.
    fn bytes(&mut self, length: u64) -> String {
        match self.random.below(4) {
            _ if length == 0 => "-".into(),
            0 => format!("rep:{:02x}:{length}", self.random.below(256)),
            1 | 2 if length <= 16 => {
                let bytes: Vec<u8> = (0..length).map(|_| self.random.next() as u8).collect();
                hex(&bytes)
            }
            _ => format!("gen:{}:{length}", self.random.below(1000)),
        }
    }

    fn flags(&mut self) -> u64 {
        match self.random.below(20) {
            0 => self.random.below(256),
            1 => 8 << self.random.below(5),
            2..=5 => DIRTY,
            6..=9 => 0,
            10 | 11 => 2,
            12 => 1,
            _ => self.random.below(8),
        }
    }

    /// `s` or `w`: sparse or W^X.
    fn layer(&mut self) -> &'static str {
        self.random.pick(&["s", "w", "w"])
    }

    // ---- rounding and page indices

    fn arithmetic(&mut self) {
        let x = if self.random.one_in(3) { self.number() } else { self.address() };
        match self.random.below(4) {
            0 => self.answered(format!("roundup {x}")),
            1 => self.answered(format!("rounddown {x}")),
            _ => {
                let size = self.size_at(x);
                if size == 0 && !self.outside {
                    if !self.may_stop() {
                        return;
                    }
                    self.stops += 1;
                }
                self.answered(format!("page_indices {x} {size}"));
            }
        }
    }

    // ---- memory

    fn store_bytes(&mut self) {
        let (layer, address) = (self.layer(), self.address());
        let mut length = self.size_at(address);
        if length > 5 * PAGE {
            length = self.random.below(40);
        }
        let bytes = self.bytes(length);
        self.call(&format!("{layer}.store_bytes {address} {bytes}"));
    }

    fn store_byte(&mut self) {
        let (layer, address) = (self.layer(), self.address());
        let size = self.size_at(address);
        let value = self.random.below(256);
        self.call(&format!("{layer}.store_byte {address} {size} {value}"));
    }

    fn store_word(&mut self) {
        let bits = self.random.pick(&[8, 16, 32, 64]);
        let (layer, address, value) = (self.layer(), self.word_address(bits), self.number());
        self.call(&format!("{layer}.store{bits} {address} {value}"));
    }

    /// An address for a word of so many bits: here and there its last byte is
    /// close to the machine's last.
    fn word_address(&mut self, bits: u64) -> u64 {
        let end = self.here().size.wrapping_sub(bits / 8);
        if self.random.one_in(9) { self.random.near(end, 1) } else { self.address() }
    }

    fn load_word(&mut self) {
        let bits = self.random.pick(&[8, 16, 32, 64]);
        let (layer, address) = (self.layer(), self.word_address(bits));
        if self.random.one_in(3) {
            let (before, value) = (self.random.below(8), self.number());
            self.call(&format!("s.store64 {} {value}", address.saturating_sub(before)));
        }
        self.call(&format!("{layer}.load{bits} {address}"));
    }

    fn execute_load(&mut self) {
        let bits = self.random.pick(&[16, 32]);
        let (layer, address) = (self.layer(), self.word_address(bits));
        let last = self.here().pages().wrapping_sub(1);
        if address / PAGE >= last && self.random.one_in(2) {
            self.call(&format!("set_flag {last} 2"));
        }
        self.call(&format!("{layer}.execute_load{bits} {address}"));
    }

    fn load_bytes(&mut self) {
        let (layer, address) = (self.layer(), self.address());
        let mut size = self.size_at(address);
        if size > 64 && size <= 3 * PAGE && !self.random.one_in(5) {
            size = self.random.below(48);
        }
        let room = match self.random.below(8) {
            _ if size > 3 * PAGE => self.random.below(9),
            0 => 0,
            1 => size.saturating_sub(1),
            2 | 3 => size + self.random.between(1, 9),
            _ => size,
        };
        self.call(&format!("{layer}.load_bytes {address} {size} {room}"));
    }

    /// A string is written, mostly with its zero, and read from near its start.
    fn c_string(&mut self) {
        let (layer, size) = (self.layer(), self.here().size);
        let length = if self.random.one_in(25) { self.random.between(PAGE, PAGE + 30) } else { self.random.below(30) };
        let address = match self.random.below(8) {
            0 => size.saturating_sub(length),
            1 => size.saturating_sub(length + 1),
            _ => self.address(),
        };
        let letters: Vec<u8> = (0..length).map(|_| self.random.between(1, 255) as u8).collect();
        if length > 40 {
            self.call(&format!("s.store_byte {address} {length} {}", letters[0]));
        } else {
            self.call(&format!("s.store_bytes {address} {}", hex(&letters)));
        }
        if !self.random.one_in(4) {
            self.call(&format!("s.store8 {} 0", address.wrapping_add(length)));
        }
        let from = if self.random.one_in(6) { self.random.near(address, 2) } else { address };
        let room = match self.random.below(6) {
            0 => self.random.below(length + 1),
            1 => length.saturating_sub(1),
            2 => length + self.random.between(1, 9),
            _ => length,
        };
        self.call(&format!("{layer}.load_c_string {from} {room}"));
    }

    fn init_pages(&mut self) {
        let (layer, memory) = (self.layer(), self.here().size);
        let mut address = self.page().wrapping_mul(PAGE);
        let mut size = match self.random.below(12) {
            0 => 0,
            1 => memory.wrapping_sub(address),
            2 => memory.wrapping_sub(address).wrapping_add(PAGE),
            3 => self.random.pick(&[MAXIMUM, memory.wrapping_add(PAGE), TOP - PAGE + 1, TOP]),
            4 => self.random.between(1, 3) * PAGE,
            _ => (self.random.between(1, 3) * PAGE).min(memory.saturating_sub(address)),
        };
        match self.random.below(14) {
            0 => address = self.address(),
            1 => size = self.size_at(address),
            2 => {
                address = self.address();
                size = self.size_at(address);
            }
            3 => address = self.random.pick(&[memory, memory + PAGE, TOP - PAGE + 1]),
            4 => (address, size) = (memory + self.random.below(2) * PAGE, 0),
            _ => {}
        }
        let lead = match self.random.below(10) {
            0 => size,
            1 => size.wrapping_add(1),
            2 => size.saturating_sub(self.random.below(20)),
            3 => PAGE,
            4 | 5 => self.random.below(40),
            6 => self.random.below(2 * PAGE),
            _ => 0,
        };
        let room = size.wrapping_sub(lead).min(4 * PAGE);
        let length = match self.random.below(6) {
            0 => 0,
            1 => room,
            2 => room + self.random.between(1, 9),
            3 => room.saturating_sub(1),
            _ => self.random.below(60),
        };
        let (flags, bytes) = (self.flags(), self.bytes(length));
        self.call(&format!("{layer}.init_pages {address} {size} {flags} {lead} {bytes}"));
    }

    fn flag(&mut self) {
        let page = self.page();
        match self.random.below(8) {
            0..=2 => self.call(&format!("fetch_flag {page}")),
            3 | 4 => {
                let flags = self.flags();
                self.call(&format!("set_flag {page} {flags}"));
            }
            5 => self.call(&format!("clear_flag {page} {DIRTY}")),
            _ => {
                let flags = if self.random.one_in(2) { self.flags() } else { self.random.pick(&[255, 7, 3, 2]) };
                self.call(&format!("clear_flag {page} {flags}"));
            }
        }
    }

    /// Stores and execute loads at the edge of an executable page.
    fn executable(&mut self) {
        let (page, flag) = (self.page(), self.random.between(2, 3));
        self.call(&format!("set_flag {page} {flag}"));
        let beside = page.wrapping_add(self.random.pick(&[1, TOP]));
        match self.random.below(4) {
            0 => self.call(&format!("set_flag {beside} 2")),
            1 => self.call(&format!("clear_flag {beside} 2")),
            _ => {}
        }
        let start = page.wrapping_mul(PAGE);
        for _ in 0..self.random.between(1, 3) {
            let edge = self.random.pick(&[start, start.wrapping_add(PAGE)]);
            let (bits, value) = (self.random.pick(&[16, 32]), self.number());
            // Half of them end on the edge, or pass it by fewer bytes than they have.
            let address = if self.random.one_in(2) {
                edge.wrapping_sub(self.random.between(1, bits / 8))
            } else {
                self.random.near(edge, 9)
            };
            match self.random.below(8) {
                0 => {
                    let bytes = self.random.between(1, 20);
                    let bytes = self.bytes(bytes);
                    self.call(&format!("w.store_bytes {address} {bytes}"));
                }
                1 => {
                    let size = self.size_at(address);
                    self.call(&format!("w.store_byte {address} {size} 90"));
                }
                2 => self.call(&format!("w.store{bits} {address} {value}")),
                3 => self.call(&format!("w.store64 {address} {value}")),
                _ => self.call(&format!("w.execute_load{bits} {address}")),
            }
        }
        if !self.random.one_in(3) {
            self.call(&format!("clear_flag {page} 2"));
        }
    }

    /// Words over the edge of two pages of the machine, each executable or not.
    fn straddling(&mut self) {
        let pages = self.here().pages();
        if pages < 2 {
            return self.execute_load();
        }
        let page = self.random.between(1, pages - 1);
        for page in [page - 1, page] {
            let way = self.random.pick(&["set", "clear"]);
            self.call(&format!("{way}_flag {page} 2"));
        }
        for _ in 0..self.random.between(1, 3) {
            let (bits, value) = (self.random.pick(&[16, 32, 64]), self.number());
            let address = page * PAGE - self.random.between(1, bits / 8 - 1);
            if bits == 64 || self.random.one_in(3) {
                self.call(&format!("w.store{bits} {address} {value}"));
            } else {
                self.call(&format!("w.execute_load{bits} {address}"));
            }
        }
    }

    /// Page fills that meet a frozen page at once or later.
    fn frozen(&mut self) {
        let (page, flag) = (self.page(), self.random.pick(&[1, 1, 3, 5, 9]));
        self.call(&format!("set_flag {page} {flag}"));
        let first = page.saturating_sub(self.random.below(3));
        let size = self.random.between(1, 4) * PAGE;
        let (layer, flags) = (self.layer(), self.flags());
        let bytes = self.bytes(PAGE + 3);
        self.call(&format!("{layer}.init_pages {} {size} {flags} 0 {bytes}", first.wrapping_mul(PAGE)));
        if self.random.one_in(2) {
            self.call(&format!("clear_flag {page} 1"));
        }
    }

    // ---- machine

    fn reservation(&mut self) {
        let x = self.number();
        if self.random.one_in(2) {
            self.call(&format!("set_lr {x}"));
        }
        self.call("lr");
    }

    fn register(&mut self) {
        let past = self.random.one_in(30);
        let number = if past { self.random.pick(&[32, 33, 64, TOP, 1 << 32]) } else { self.random.below(32) };
        if self.random.one_in(2) {
            let x = self.number();
            self.risky_call(&format!("set_register {number} {x}"), past);
        } else {
            self.risky_call(&format!("register {number}"), past);
        }
    }

    fn pc(&mut self) {
        let x = self.number();
        match self.random.below(4) {
            0 => self.call("pc"),
            1 => self.call("commit_pc"),
            _ => self.call(&format!("update_pc {x}")),
        }
    }

    fn cycles(&mut self) {
        let x = self.number();
        match self.random.below(6) {
            0 => self.call("cycles"),
            1 => self.call("max_cycles"),
            2 => self.call("version"),
            3 => self.call(&format!("set_max_cycles {x}")),
            _ => self.call(&format!("set_cycles {x}")),
        }
    }

    // ---- sources

    fn source(&mut self, id: u64, length: u64) {
        // No two pages of a long item are alike.
        let bytes = if length > 16 { format!("gen:{}:{length}", self.random.below(1000)) } else { self.bytes(length) };
        self.set_up(format!("source {id} {bytes}"));
        self.entries.push([id, self.source_length, length]);
        self.source_length += length;
    }

    fn entry(&mut self, id: u64, start: u64, length: u64) {
        self.set_up(format!("entry {id} {start} {length}"));
        self.entries.push([id, start, length]);
    }

    fn first_sources(&mut self) {
        let odd = self.random.between(1, 60);
        for (id, length) in [
            (1, 2 * PAGE),
            (2, 3 * PAGE + odd),
            (0, PAGE),
            (3, 10),
            (4, 0),
            (TOP, 6 * PAGE + 5),
            (1, 50),
            (5, PAGE - 1),
            (7, 10_000),
        ] {
            self.source(id, length);
        }
        let end = self.source_length;
        self.entry(20, 0, end);
        self.entry(21, end, 0);
        self.entry(22, end + 1, 0);
        self.entry(23, end - 5, 6);
        self.entry(24, TOP - 1, 3);
        self.entry(25, 16, TOP - 15);
        self.entry(26, 100, 2 * PAGE);
        // The first entry decides, also where it is bad and the second good.
        self.entry(23, 0, 40);
        self.entry(27, TOP, TOP);
    }

    fn another_source(&mut self) {
        if self.entries.len() >= MOST_ENTRIES || self.source_length >= MOST_SOURCE {
            return;
        }
        let id = if self.random.one_in(3) { self.number() } else { self.random.below(40) };
        let end = self.source_length;
        if self.random.one_in(3) {
            let start = self.random.pick(&[0, 1, end, end + 1, end / 2, TOP]);
            let length = self.random.pick(&[0, 1, PAGE, 3 * PAGE, end, end - end / 2, TOP]);
            self.entry(id, start, length);
        } else {
            let length = match self.random.below(6) {
                0 => 0,
                1 => self.random.below(100),
                2 => PAGE,
                3 => self.random.between(1, 5) * PAGE,
                4 => self.random.between(1, 5) * PAGE + self.random.below(20),
                _ => self.random.below(3 * PAGE),
            };
            self.source(id, length);
        }
    }

    /// The item's length where the first entry with the id is good now: bytes
    /// that are appended later can make it so.
    fn length_of(&self, id: u64) -> Option<u64> {
        let &[_, start, length] = self.entries.iter().find(|entry| entry[0] == id)?;
        let end = start.checked_add(length)?;
        (end <= self.source_length).then_some(length)
    }

    fn id(&mut self) -> u64 {
        match self.random.below(40) {
            0 => 99,
            1 => self.number(),
            2..=30 => self.random.pick(&[1, 2, TOP, 7, 20, 26]),
            _ => {
                let at = self.random.below(self.entries.len() as u64) as usize;
                self.entries[at][0]
            }
        }
    }

    /// An offset into an item of that length, its end often.
    fn offset_in(&mut self, length: u64) -> u64 {
        match self.random.below(24) {
            0 | 1 => length,
            2 => length.wrapping_add(1),
            3 => length.saturating_sub(self.random.below(9)),
            4 | 5 => length.saturating_sub(PAGE),
            6 | 7 => self.random.below(length + 1),
            8..=11 => PAGE * self.random.below(length / PAGE + 1),
            12 | 13 => self.random.below(length.min(20) + 1),
            _ => 0,
        }
    }

    fn load_data(&mut self) {
        let id = self.id();
        let length = self.length_of(id).unwrap_or(5);
        let offset = if self.random.one_in(12) { self.number() } else { self.offset_in(length) };
        let left = length.saturating_sub(offset);
        let wanted = match self.random.below(8) {
            0 => 0,
            1 if left < 100 || self.random.one_in(10) => self.random.pick(&[TOP, left, left + 1]),
            2 => left.saturating_sub(1).min(40),
            3 => left.min(60),
            _ => self.random.below(30),
        };
        self.call(&format!("load_data {id} {offset} {wanted}"));
    }

    // ---- tracking

    fn track(&mut self) {
        let mut start = self.page().wrapping_mul(PAGE);
        if self.random.one_in(3) {
            start = self.address();
        }
        let head = start.wrapping_neg() % PAGE;
        let length = match self.random.below(12) {
            0 => self.size_at(start),
            1 => head.saturating_sub(1),
            2 => head,
            3 => head + PAGE - 1,
            4 => self.here().size.wrapping_sub(start).wrapping_add(self.random.below(2) * PAGE),
            5 => self.random.below(3 * PAGE),
            6 | 7 => head + PAGE * self.random.between(1, 3) + self.random.below(9),
            _ => head + PAGE * self.random.between(1, 3),
        };
        let offset = match self.random.below(20) {
            0 => self.random.near(TOP - PAGE, 2),
            1 => self.random.near(TOP - 3 * PAGE, 2),
            2 => TOP.wrapping_sub(head).wrapping_add(self.random.below(2)),
            3 => self.number(),
            _ => self.random.below(4) * PAGE,
        };
        let id = self.id();
        let ends = track_ends(self.here().size, start, length, offset);
        self.risky_call(&format!("track {start} {length} {id} {offset}"), ends == Tracked::Stopped);
    }

    /// Two to four pages side by side, each tracked by itself, so that each
    /// condition of merging decides by itself. Half of them have flags alike
    /// and differ in one thing, at one page; for the others what differs is
    /// chosen for each page.
    fn neighbours(&mut self) {
        let pages = self.here().pages();
        if pages < 2 {
            return self.track();
        }
        let count = self.random.between(2, pages.min(4));
        let first = self.random.below(pages - count + 1);
        let (mut id, mut offset) = (self.random.below(3), PAGE * self.random.below(3));
        let other = self.random.one_in(2).then(|| first + self.random.below(count));
        for page in first..first + count {
            if other.is_some() || self.random.one_in(2) {
                self.call(&format!("clear_flag {page} 255"));
            }
        }
        for page in first..first + count {
            let flag = self.random.pick(&[1, 2, 4, 8]);
            let differs = match other {
                None => self.random.below(10),
                Some(other) if other == page => self.random.below(7),
                Some(_) => 9,
            };
            match differs {
                0 => offset += PAGE,
                1 => offset = offset.wrapping_sub(1),
                2 => id += 1,
                3 => self.call(&format!("set_flag {page} {flag}")),
                4 => continue,
                // the offsets go on over a page that is not tracked
                5 => {
                    self.call(&format!("untrack {} 1", page * PAGE));
                    continue;
                }
                _ => {}
            }
            self.risky_call(&format!("track {} {PAGE} {id} {offset}", page * PAGE), offset.checked_add(PAGE).is_none());
            if other.is_none() && self.random.one_in(8) {
                self.call(&format!("set_flag {page} {flag}"));
            }
            offset = offset.wrapping_add(PAGE);
        }
        if other.is_some() {
            self.snapshot_into(self.here(), false);
            self.show();
        } else if self.random.one_in(2) {
            self.snapshot();
        }
    }

    fn untrack(&mut self) {
        let start = self.address();
        let length = self.size_at(start);
        self.call(&format!("untrack {start} {length}"));
        if self.random.one_in(4) {
            self.call(&format!("clear_flag {} {DIRTY}", start / PAGE));
        }
    }

    fn context(&mut self) {
        let size = self.here().size;
        let id = self.id();
        let item = self.length_of(id).unwrap_or(5);
        let offset = self.offset_in(item);
        let left = item.saturating_sub(offset);
        let mut address = match self.random.below(8) {
            0..=3 => self.page().wrapping_mul(PAGE),
            4 => size.saturating_sub(left),
            _ => self.address(),
        };
        let mut length = match self.random.below(12) {
            0 => 0,
            1 => TOP,
            2 => self.size_at(address),
            3 => self.random.below(30),
            4 => left.saturating_sub(1),
            5..=7 => PAGE * self.random.between(1, 3),
            8 => size.saturating_sub(address),
            _ => left + self.random.below(3),
        };
        let size_address = match self.random.below(8) {
            0 => address.wrapping_add(self.random.below(PAGE)),
            1 => self.address(),
            2 => self.random.near(size.wrapping_sub(8), 2),
            _ => self.page().wrapping_mul(PAGE).wrapping_add(8 * self.random.below(512)),
        };
        if self.random.one_in(40) {
            (address, length) = (self.random.near(TOP - PAGE + 1, 2), 0);
        }
        let nothing = length == 0 || left == 0;
        let found = self.length_of(id).is_some_and(|length| offset <= length);
        let stored = self.outside || size_address.checked_add(8).is_some_and(|end| end <= size);
        let stops = found && nothing && stored && address > TOP - PAGE + 1;
        self.risky_call(&format!("context {address} {id} {offset} {length} {size_address}"), stops);
    }

    fn mark(&mut self) {
        let size = self.here().size;
        let count = self.random.below(4);
        let actions: Vec<Action> = (0..count).map(|_| self.action()).collect();
        let offset = match self.random.below(12) {
            0 => self.random.near(TOP - 2 * PAGE, 9),
            1 => self.number(),
            _ => self.random.below(3) * PAGE,
        };
        let id = self.id();
        let mut words = format!("mark {id} {offset}");
        for number in actions.iter().flatten() {
            words += &format!(" {number}");
        }
        self.risky_call(&words, mark_stops(size, offset, &actions));
    }

    /// Address, size, flags, source start, source end, lead.
    fn action(&mut self) -> Action {
        let address = if self.random.one_in(6) { self.address() } else { self.page().wrapping_mul(PAGE) };
        let size = PAGE * self.random.between(1, 3);
        let lead = if self.random.one_in(3) { self.random.below(PAGE) } else { 0 };
        let start = if self.random.one_in(2) { 0 } else { self.random.below(2 * PAGE) };
        let length = match self.random.below(4) {
            0 => size - lead,
            1 => self.random.below(PAGE),
            _ => PAGE * self.random.between(1, 3) + self.random.below(3),
        };
        let mut action = [address, size, self.flags(), start, start + length, lead];
        match self.random.below(30) {
            0 => action[5] = size + self.random.below(2),
            1 => action[4] = start.wrapping_sub(self.random.below(2)),
            2 => action[5] = TOP.wrapping_sub(address).wrapping_add(self.random.below(2)),
            3 => action[1] = self.number(),
            4 => action[3] = self.random.below(start + length + 1),
            _ => {}
        }
        action
    }

    // ---- snapshot and resume

    fn snapshot(&mut self) {
        let short = self.random.one_in(2);
        self.snapshot_into(self.here(), short);
        if self.random.one_in(2) {
            self.show();
        }
    }

    /// A snapshot of each machine into its own pair of files: `m` and the machine's number.
    fn snapshot_into(&mut self, shape: Shape, short: bool) {
        self.snapshot_named("m", shape, short);
    }

    fn snapshot_named(&mut self, name: &str, shape: Shape, short: bool) {
        let pages = shape.pages();
        let mut records = (9 + pages) * 48;
        let mut bytes = shape.size;
        if short {
            let few = 9 + self.random.below(pages.min(6) + 1);
            match self.random.below(5) {
                0 => records = few * 48,
                1 => records = few * 48 - 1,
                2 => bytes = self.random.below(pages + 1) * PAGE,
                3 => bytes = (self.random.below(pages + 1) * PAGE).saturating_sub(1),
                _ => {
                    records = self.random.below(9 * 48 + 1);
                    bytes = self.random.below(2);
                }
            }
        } else if self.random.one_in(4) {
            records += self.random.between(1, 100);
            bytes += self.random.between(1, 5000);
        }
        for i in 0..self.on.len() {
            let k = self.on[i];
            self.answered(format!("{k} snapshot {name}{k} {records} {bytes}"));
            if let Some(twins) = &mut self.twins {
                twins.snapshot(format!("{name}{k}"), records, bytes);
            }
        }
    }

    /// Of each machine's pair `m`. Twins have the same there once a snapshot was done.
    fn show(&mut self) {
        if self.twins.as_ref().is_some_and(|twins| !twins.snapped) {
            return;
        }
        for i in 0..self.on.len() {
            self.answered(format!("show m{}", self.on[i]));
        }
    }

    /// Its own last snapshot, or any pair of files, on this machine.
    fn resume(&mut self) {
        let pair = match self.random.below(7) {
            _ if self.twins.is_some() => self.kept_pair(),
            0 => "made".into(),
            1..=3 => format!("m{}", self.on[0]),
            4 => format!("n{}", self.random.below(10)),
            _ => format!("m{}", self.random.below(10)),
        };
        self.call(&format!("resume {pair}"));
        self.call("dump");
    }

    /// A machine's snapshot is resumed on another; then both are called alike.
    fn handover(&mut self) {
        let k = self.on[0];
        let shape = self.shape_of(k);
        if shape.pages() > 64 && !self.random.one_in(4) {
            return;
        }
        if self.random.one_in(2) {
            self.pc();
            self.call("commit_pc");
        }
        self.snapshot_into(shape, false);
        let j = (k + self.random.between(1, 9) as usize) % 10;
        let other = match self.random.below(12) {
            0 | 3 => Shape { size: shape.size.saturating_sub(PAGE * self.random.between(1, 3)), ..shape },
            1 if shape.size < MAXIMUM => Shape { size: shape.size + PAGE, slots: shape.slots + 1, ..shape },
            2 => Shape { version: self.random.pick(&[0, 1, 2, 3]), ..shape },
            _ => shape,
        };
        match self.random.below(8) {
            0 => self.call(&format!("resume m{k}")),
            1 if matches!(self.machines[j], Machine::There(_)) => self.turn_to(j),
            2 => {
                self.fresh(j, other);
                self.turn_to(j);
                for _ in 0..self.random.between(1, 5) {
                    self.some_call(FURTHER);
                }
            }
            _ => {
                self.fresh(j, other);
                self.turn_to(j);
            }
        }
        if self.on[0] != k {
            self.call(&format!("resume m{k}"));
            for words in ["dump", "pc", "cycles", "max_cycles", "register 0", "register 31"] {
                self.call(words);
            }
        }
        let alike = self.on[0] != k && self.here().size == shape.size;
        self.on = if alike { vec![k, j] } else { vec![k] };
        self.call("dump");
        for _ in 0..self.random.between(2, 9) {
            self.some_call(FURTHER);
        }
        self.snapshot_into(shape, false);
        self.show();
        self.call("dump");
        self.turn_to(k);
    }

    /// Pages from a source, of which some are stored to: those go out as bytes, the others as source runs.
    fn corrected(&mut self) {
        let pages = self.here().pages();
        if pages < 2 {
            return self.context();
        }
        let count = self.random.between(2, pages.min(6));
        let first = self.random.below(pages - count + 1);
        for page in first..first + count {
            if self.random.one_in(3) {
                let flags = self.random.pick(&[2, 3, 255]);
                self.call(&format!("clear_flag {page} {flags}"));
            }
        }
        let (id, past) = (self.random.pick(&[20, 20, TOP, 2]), self.random.pick(&[0, 0, 100, PAGE]));
        let (address, size_address) = (first * PAGE + past % PAGE, 8 * self.random.below(512 * pages));
        self.call(&format!("context {address} {id} {past} {} {size_address}", count * PAGE));
        if self.random.one_in(3) {
            self.snapshot_named("n", self.here(), false);
        }
        for _ in 0..self.random.below(4) {
            let edge = (first + self.random.below(count)) * PAGE;
            let (at, value) = (self.random.near(edge.max(9), 9), self.number());
            self.call(&format!("w.store64 {at} {value}"));
        }
        if self.random.one_in(4) {
            let (page, flag) = (first + self.random.below(count), self.random.pick(&[1, 2, 8, DIRTY]));
            self.call(&format!("set_flag {page} {flag}"));
        }
        self.snapshot_into(self.here(), false);
        self.show();
        if self.random.one_in(2) && self.twins.is_none() {
            self.handover();
        }
    }

    /// Two snapshots of a machine with calls between them. The older or both are resumed on a machine that was
    /// called before, which may be the same.
    fn older(&mut self) {
        let k = self.on[0];
        let shape = self.shape_of(k);
        if shape.pages() > 64 {
            return;
        }
        self.snapshot_named("n", shape, false);
        for _ in 0..self.random.between(1, 6) {
            self.some_call(FURTHER);
        }
        self.snapshot_named("m", shape, false);
        let there: Vec<usize> = (0..10).filter(|&k| matches!(self.machines[k], Machine::There(_))).collect();
        let j = if self.random.one_in(3) { k } else { self.random.pick(&there) };
        self.turn_to(j);
        for pair in ["m", "n", "m"] {
            if self.random.one_in(2) {
                if self.random.one_in(2) {
                    let page = self.random.below(self.here().pages());
                    self.call(&format!("clear_flag {page} 2"));
                }
                self.call(&format!("resume {pair}{k}"));
                self.call("dump");
            }
        }
        self.snapshot_into(self.here(), false);
        self.show();
        self.turn_to(k);
    }

    /// A pair of files in form whose runs lie in the machine, apart from each other, from items that have their
    /// bytes. It is resumed on a machine that is fresh, or that is not.
    fn good_file(&mut self) {
        let pages = self.here().pages();
        if pages > 64 {
            return;
        }
        let mut records = self.state_records();
        let (mut sources, mut dirty) = (vec![], vec![]);
        let (mut page, mut place) = (self.random.below(2), 0);
        while page < pages {
            let count = self.random.between(1, 3.min(pages - page));
            let (address, flag) = (page * PAGE, self.flags());
            match self.random.below(5) {
                0 | 1 => {
                    let id = self.random.pick(&[20, 20, TOP, 26, 1]);
                    let item = self.length_of(id).unwrap_or(0);
                    let room = item.saturating_sub(count * PAGE);
                    let any = self.random.below(room + 1);
                    let offset = self.random.pick(&[0, room, any, PAGE.min(room)]);
                    sources.push([3, address, flag, id, offset, count * PAGE]);
                }
                2 | 3 => {
                    dirty.push([4, address, flag | self.random.pick(&[DIRTY, 0]), count, place, 0]);
                    place += count;
                }
                _ => {}
            }
            page += count;
        }
        records.append(&mut sources);
        records.append(&mut dirty);
        let bytes = self.bytes(place * PAGE);
        self.set_up(format!("file made {} {bytes}", hex(&record_bytes(&records))));
        match self.random.below(4) {
            0 => {
                let page = self.random.below(pages);
                self.call(&format!("clear_flag {page} 255"));
            }
            1 => {}
            _ if self.twins.is_some() => {}
            _ => self.turn_fresh(self.on[0]),
        }
        self.call("resume made");
        for words in ["dump", "pc", "lr", "register 5"] {
            self.call(words);
        }
        for _ in 0..self.random.below(4) {
            self.some_call(FURTHER);
        }
        self.snapshot_into(self.here(), false);
        self.show();
    }

    /// A pair of files written by hand, good or broken in one way, is resumed.
    fn record_file(&mut self) {
        let mut records = self.state_records();
        for _ in 0..self.random.below(4) {
            let run = self.source_run();
            records.push(run);
        }
        let mut place = 0;
        for _ in 0..self.random.below(4) {
            let run = self.dirty_run(place);
            place += run[3];
            records.push(run);
        }
        let mut file = RecordFile { records, cut: 0, more: 0, page_bytes: place * PAGE };
        if self.random.one_in(90) {
            let many = self.random.between(1032, 1034) as usize;
            file.records.resize(many, [4, 0, DIRTY, 0, place, 0]);
        } else if self.random.one_in(2) {
            self.damage(&mut file, place);
        }
        let mut bytes = record_bytes(&file.records);
        bytes.truncate(bytes.len().saturating_sub(file.cut));
        bytes.extend(vec![0; file.more]);
        let pages = self.bytes(file.page_bytes);
        self.set_up(format!("file made {} {pages}", hex(&bytes)));
        if self.random.one_in(12) && self.twins.is_none() {
            self.answered("show made".into());
        }
        self.call("resume made");
        for words in ["dump", "pc", "cycles"] {
            self.call(words);
        }
        if self.random.one_in(3) {
            let number = self.random.below(32);
            self.call(&format!("register {number}"));
            self.call("commit_pc");
            self.call("pc");
            self.call("max_cycles");
        }
        if self.random.one_in(3) {
            self.snapshot_into(self.here(), false);
            self.show();
        }
    }

    /// The state record and the eight of the registers.
    fn state_records(&mut self) -> Vec<Record> {
        let mut version = self.here().version;
        if self.random.one_in(12) {
            version = self.random.pick(&[0, 1, 2, 3, 4_294_967_295]);
        }
        let mut records = vec![[1, version, self.number(), self.number(), self.number(), self.number()]];
        for i in 0..8 {
            records.push([2, 4 * i, self.number(), self.number(), self.number(), self.number()]);
        }
        records
    }

    /// The address of a run: a page of the machine, seldom another.
    fn run_address(&mut self) -> u64 {
        let start = self.page().wrapping_mul(PAGE);
        match self.random.below(30) {
            0 => self.address(),
            1 | 2 => start.wrapping_add(1 << self.random.below(12)),
            _ => start,
        }
    }

    fn source_run(&mut self) -> Record {
        let (address, flag) = (self.run_address(), self.flags());
        let id = self.id();
        let item = self.length_of(id).unwrap_or(0);
        let whole = item / PAGE;
        let pages = self.random.between(1.min(whole), whole.min(3));
        let mut length = pages * PAGE;
        let mut offset = self.random.below((whole - pages) * PAGE + item % PAGE + 1);
        match self.random.below(12) {
            0 => length = 0,
            1 => length += PAGE,
            2 => length = self.random.near(length, 3),
            3 => offset = self.offset_in(item),
            4 => length = TOP,
            5 => offset = item % PAGE,
            6 => return [3, address.wrapping_add(self.random.below(2)), flag, 99, 0, length],
            _ => {}
        }
        [3, address, flag, id, offset, length]
    }

    fn dirty_run(&mut self, place: u64) -> Record {
        let flag = self.flags() | self.random.pick(&[DIRTY, DIRTY, DIRTY, 0]);
        let pages = self.random.pick(&[0, 1, 1, 1, 2, 2, 3]);
        [4, self.run_address(), flag, pages, place, 0]
    }

    /// Breaks one rule of the record file; here and there it stays good.
    fn damage(&mut self, file: &mut RecordFile, place: u64) {
        let dirty = [4, 0, DIRTY, 0, place, 0];
        let records = &mut file.records;
        let any = self.random.below(records.len() as u64) as usize;
        let of_nine = self.random.below(9) as usize;
        let register = self.random.between(1, 8) as usize;
        let runs = records.len() - 9;
        let run = (runs > 0).then(|| 9 + self.random.below(runs as u64) as usize);
        match self.random.below(30) {
            0 => records[any][0] = self.random.pick(&[0, 1, 2, 3, 4, 5, 256, TOP]),
            1 => records.swap(of_nine, register),
            2 => records[register][1] = self.random.pick(&[0, 1, 4, 28, 29, 32, TOP]),
            3 => records[0][1] = self.random.pick(&[1 << 32, (1 << 32) + records[0][1], TOP]),
            4 | 5 => match run {
                Some(run) => records[run][2] = self.random.pick(&[256, 255, 260, 1 << 32, TOP]),
                None => records.push([3, 0, 256, 1, 0, 0]),
            },
            6 => records.push([4, 0, 256, 0, place, 0]),
            7 => records.push([4, 0, DIRTY, 0, place + 1, 0]),
            8 => records.push([4, 0, DIRTY, 0, place.wrapping_sub(1), 0]),
            9 => records.push([4, 0, DIRTY, 0, place, self.random.pick(&[1, 1 << 63])]),
            10 => file.page_bytes += 1,
            11 => file.page_bytes = file.page_bytes.saturating_sub(1),
            12 => file.page_bytes += PAGE,
            13 => file.page_bytes = file.page_bytes.saturating_sub(PAGE),
            14 => file.cut = self.random.between(1, 47) as usize,
            15 => file.cut = 1,
            16 => file.cut = 48,
            17 => file.more = self.random.between(1, 49) as usize,
            18 => file.more = 48,
            19 => records.extend([dirty, [3, 0, 0, 1, 0, 0]]),
            20 => records.insert(9, records[0]),
            21 => records.push(records[register]),
            22 => records.truncate(self.random.below(10) as usize),
            23 => records.truncate(8),
            24 => drop(records.remove(of_nine)),
            25 => {
                let pages = self.random.pick(&[1 << 52, (1 << 52) - place, TOP, TOP - place]);
                records.push([4, 0, DIRTY, pages, place, 0]);
            }
            26 => records.extend([
                [4, 0, DIRTY, TOP - place, place, 0],
                [4, 0, DIRTY, self.random.between(1, 2), TOP, 0],
                [4, 0, DIRTY, 0, self.random.below(2), 0],
            ]),
            27 => {
                if let Some(run) = run {
                    records[run][1] = self.random.next();
                }
            }
            28 => records.push([3, 0, 0, 1, 0, 0]),
            _ => records.swap(any, of_nine),
        }
    }

    // ---- outside the domain

    /// Storage of wrong lengths, slot numbers and counts of our own.
    fn lending(&mut self) {
        let k = self.on[0];
        let Shape { size, slots, .. } = self.here();
        let pages = size / PAGE;
        match self.random.below(4) {
            0 => {
                let page = self.random.below(pages + 1);
                let number = self.random.pick(&[0, 1, slots, 65_534, 65_535]);
                self.set_up(format!("slot {k} {page} {number}"));
            }
            1 => {
                let number = self.random.pick(&[0, slots, slots + 1, TOP]);
                self.set_up(format!("used {k} {number}"));
            }
            _ => {
                let mut lengths = [pages, pages, 3 * pages, slots * PAGE];
                let which = self.random.below(4) as usize;
                lengths[which] = match self.random.below(4) {
                    0 => 0,
                    1 => lengths[which] + 1,
                    2 => lengths[which].saturating_sub(1),
                    _ => lengths[which] + PAGE,
                };
                let [numbers, flags, words, area] = lengths;
                self.set_up(format!("lend {k} {numbers} {flags} {words} {area}"));
            }
        }
        for _ in 0..self.random.between(1, 4) {
            match self.random.below(5) {
                0 => self.snapshot(),
                1 => self.resume(),
                _ => self.some_call(FURTHER),
            }
            self.call("raw");
        }
        self.set_up(format!("lend {k}"));
        self.call("raw");
        if self.random.one_in(3) {
            self.turn_fresh(k);
        }
    }
}

/// A pair of files on its way to be written down.
struct RecordFile {
    records: Vec<Record>,
    /// Bytes taken from the record file's end, and zero bytes put there.
    cut: usize,
    more: usize,
    page_bytes: u64,
}
