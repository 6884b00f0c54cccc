//! The port behind the call script, over the archive of crate `host`.
//!
//! The storage that `fresh` makes is held here and lent to each call, and so are the sources and the pairs of files. Each
//! slice that is lent is an allocation of its length, so that tools/sanitize sees a byte that is read or written past it. The
//! flag calls, the reservation and `dump` have no letter: a machine with an even number asks the W^X memory for them, one
//! with an odd number the sparse memory. The numbers that an odd one lends have a part of an entry or of an action after
//! the last whole one.
//!
//! No answer shows what a snapshot leaves in its outputs past what it wrote, or where it refuses. It is looked at here:
//! were a byte of it another than before, the runner would say so and end with status 3.

#[allow(dead_code)]
#[path = "rust/src/archive.rs"]
pub mod archive;
pub mod callscript;

use archive::{
    Calls, ContextStored, Files, Found, Fresh, Lent, MachineAnswer, Made, Recorded, SPARSE, Sources, Stored, Tracked,
    Value, WXORX,
};
use callscript::{Action, Call, Fault, Host, Layer, Line, MOST_BYTES, UNWRITTEN, Width, hash, hex};
use std::collections::HashMap;

const PAGE: u64 = 4096;
/// The words of a page's record.
const RECORD: usize = 3;
/// A record file's records: the bytes of each, how many stand before its runs, and where a source run has its id.
const FILE_RECORD: u64 = 48;
const BEFORE_RUNS: usize = 9;
const RUN_ID: usize = 24;
/// An output of a snapshot is lent with no more bytes than this: four times what the largest page file has.
const MOST_ROOM: u64 = 1 << 24;
/// What the storage of a fresh machine is filled with before the call.
const BEFORE: u8 = 0xa5;
/// The most pages that storage is made for. It is far above the most that a memory can have: every size that
/// asks for more is refused.
const MOST_PAGES: u64 = 1 << 16;

// ---- storage

/// A slice that is lent: what is lent now, what is held after it, and its first length.
struct Held<T> {
    lent: Box<[T]>,
    rest: Vec<T>,
    first: usize,
}

impl<T: Clone + Default> Held<T> {
    fn new(value: T, length: usize) -> Self {
        Held { lent: vec![value; length].into(), rest: vec![], first: length }
    }

    /// Fails where a slice so long would have more bytes than a line may have lent.
    fn fits(length: u64) -> Result<usize, Fault> {
        let most = MOST_BYTES / size_of::<T>() as u64;
        if length > most { Err(format!("{length} elements are above {most}")) } else { Ok(length as usize) }
    }

    fn lend(&mut self, length: usize) {
        let mut all = std::mem::take(&mut self.lent).into_vec();
        all.append(&mut self.rest);
        if length > all.len() {
            all.resize(length, T::default());
        }
        self.rest = all.split_off(length);
        self.lent = all.into();
    }

    /// An element that is held, lent or not.
    fn element(&mut self, i: usize) -> Option<&mut T> {
        self.lent.iter_mut().chain(&mut self.rest).nth(i)
    }
}

/// What is lent to a machine's calls.
struct Storage {
    slots: Held<u16>,
    flags: Held<u8>,
    words: Held<u64>,
    area: Held<u8>,
}

impl Storage {
    /// For so many pages, with so many bytes of slots.
    fn new(pages: usize, area: usize) -> Self {
        Storage {
            slots: Held::new(u16::from_le_bytes([BEFORE; 2]), pages),
            flags: Held::new(BEFORE, pages),
            words: Held::new(u64::from_le_bytes([BEFORE; 8]), RECORD * pages),
            area: Held::new(BEFORE, area),
        }
    }

    fn lent(&mut self) -> Lent<'_> {
        Lent { slots: &mut self.slots.lent, flags: &mut self.flags.lent, area: &mut self.area.lent }
    }

    fn tracked(&mut self) -> Tracked<'_> {
        let lent = Lent { slots: &mut self.slots.lent, flags: &mut self.flags.lent, area: &mut self.area.lent };
        Tracked { lent, records: &mut self.words.lent }
    }

    fn lend(&mut self, lengths: Option<[u64; 4]>) -> Result<(), Fault> {
        let [slots, flags, words, area] = match lengths {
            None => [self.slots.first, self.flags.first, self.words.first, self.area.first],
            Some([slots, flags, words, area]) => [
                Held::<u16>::fits(slots)?,
                Held::<u8>::fits(flags)?,
                Held::<u64>::fits(words)?,
                Held::<u8>::fits(area)?,
            ],
        };
        self.slots.lend(slots);
        self.flags.lend(flags);
        self.words.lend(words);
        self.area.lend(area);
        Ok(())
    }

    /// Whether a memory's part of both is the same, both as they were made.
    fn same_memory(&self, other: &Storage) -> bool {
        self.slots.lent == other.slots.lent && self.flags.lent == other.flags.lent && self.area.lent == other.area.lent
    }

    /// Writes a page's slot number where one is held, lent or not.
    fn write_slot(&mut self, page: u64, number: u16) {
        if let Some(slot) = usize::try_from(page).ok().and_then(|page| self.slots.element(page)) {
            *slot = number;
        }
    }
}

struct Machine {
    /// what it keeps by value, its memory's numbers too
    numbers: archive::Machine,
    storage: Storage,
    odd: bool,
}

#[derive(Default)]
struct HeldSources {
    directory: Vec<u64>,
    bytes: Box<[u8]>,
}

/// A record file and its page file.
struct Pair {
    records: Box<[u8]>,
    pages: Box<[u8]>,
}

impl Pair {
    fn lent(&self) -> Files<'_> {
        Files { records: &self.records, pages: &self.pages }
    }

    /// The id of the first run, were it a source run; 0 where there is none.
    fn first_id(&self) -> u64 {
        let run = self.records.get(BEFORE_RUNS * FILE_RECORD as usize + RUN_ID..);
        run.and_then(|rest| rest.first_chunk()).map_or(0, |id| u64::from_le_bytes(*id))
    }
}

/// By their names.
type Pairs = HashMap<String, Pair>;

fn no_files<T>(name: &str) -> Result<T, Fault> {
    Err(format!("no files {name:.40}"))
}

/// An output of so many bytes, as it is before a call.
fn output(room: usize) -> Vec<u8> {
    vec![UNWRITTEN; room]
}

/// The front of an output, so many bytes: all that was written of it.
fn front(mut out: Vec<u8>, written: u64) -> Box<[u8]> {
    match usize::try_from(written).ok().and_then(|written| out.get(written..)) {
        Some(rest) if rest.iter().all(|byte| *byte == UNWRITTEN) => {
            out.truncate(written as usize);
            out.into()
        }
        Some(_) => broken("a snapshot wrote bytes past those that it answers for"),
        None => broken("a snapshot answers for more bytes than its output has"),
    }
}

/// Says what no answer shows, and ends the runner.
fn broken(what: &str) -> ! {
    eprintln!("port: BROKEN: {what}");
    std::process::exit(3)
}

fn calls(layer: Layer) -> &'static Calls {
    match layer {
        Layer::Sparse => &SPARSE,
        Layer::WXorX => &WXORX,
    }
}

// ---- answers

fn value(Value { number, value }: Value) -> String {
    format!("{number} {value}")
}

fn done() -> String {
    "0".into()
}

impl Machine {
    /// Where the calls without a letter go.
    fn own(&self) -> &'static Calls {
        if self.odd { &SPARSE } else { &WXORX }
    }

    /// The slots that are handed back are the machine's, on a refusal too.
    fn stored(&mut self, Stored { number, used }: Stored) -> String {
        self.numbers.memory.used = used;
        number.to_string()
    }

    /// The directory for a call that looks for an item: an odd machine's has the front of one more entry of it.
    fn directory(&self, sources: &HeldSources, id: u64) -> Vec<u64> {
        let more = if self.odd { &[id, 0][..] } else { &[] };
        [&sources.directory, more].concat()
    }

    /// The actions' numbers: an odd machine's have the front of one more, which would be refused.
    fn actions(&self, actions: &[Action]) -> Vec<u64> {
        let numbers = |a: &Action| [a.address, a.size, a.flags.into(), a.start, a.end, a.lead];
        let more = if self.odd { &[0, PAGE, 0, 1, 0][..] } else { &[] };
        [&actions.iter().flat_map(numbers).collect::<Vec<_>>(), more].concat()
    }

    fn call(&mut self, sources: &HeldSources, pairs: &mut Pairs, call: Call) -> Result<String, Fault> {
        let (own, numbers, memory) = (self.own(), self.numbers, self.numbers.memory);
        let storage = &mut self.storage;
        Ok(match call {
            Call::StoreBytes { layer, address, bytes } => {
                let bytes = bytes.into_boxed_slice();
                let stored = calls(layer).store_bytes(storage.lent(), &bytes, memory, address);
                self.stored(stored)
            }
            Call::StoreByte { layer, address, size, value } => {
                let stored = calls(layer).store_byte(storage.lent(), memory, address, size, value);
                self.stored(stored)
            }
            Call::Store { layer, width, address, value } => {
                let store = match width {
                    Width::One => Calls::store8,
                    Width::Two => Calls::store16,
                    Width::Four => Calls::store32,
                    Width::Eight => Calls::store64,
                };
                let stored = store(calls(layer), storage.lent(), memory, address, value);
                self.stored(stored)
            }
            Call::InitPages { layer, address, size, flags, lead, bytes } => {
                let bytes = bytes.into_boxed_slice();
                let stored = calls(layer).init_pages(storage.lent(), &bytes, memory, address, size, flags, lead);
                self.stored(stored)
            }
            Call::Load { layer, width, address } => {
                let load = match width {
                    Width::One => Calls::load8,
                    Width::Two => Calls::load16,
                    Width::Four => Calls::load32,
                    Width::Eight => Calls::load64,
                };
                value(load(calls(layer), storage.lent(), memory, address))
            }
            Call::ExecuteLoad { layer, width, address } => {
                let load = match width {
                    Width::Two => Calls::execute_load16,
                    Width::Four => Calls::execute_load32,
                    Width::One | Width::Eight => unreachable!("no line asks for it"),
                };
                value(load(calls(layer), storage.lent(), memory, address))
            }
            Call::LoadBytes { layer, address, size, room } => {
                let mut out = output(room);
                let number = calls(layer).load_bytes(storage.lent(), &mut out, memory, address, size);
                format!("{number} {}", hex(&out))
            }
            Call::LoadCString { layer, address, room } => {
                let mut out = output(room);
                let Value { number, value } = calls(layer).load_c_string(storage.lent(), &mut out, memory, address);
                format!("{number} {value} {}", hex(&out))
            }
            Call::FetchFlag { page } => value(own.fetch_flag(storage.lent(), memory, page)),
            Call::SetFlag { page, flag } => own.set_flag(storage.lent(), memory, page, flag).to_string(),
            Call::ClearFlag { page, flag } => own.clear_flag(storage.lent(), memory, page, flag).to_string(),
            Call::Lr => format!("0 {}", own.lr(memory)),
            Call::SetLr(x) => {
                self.numbers.memory = own.set_lr(memory, x);
                done()
            }
            Call::Register(i) => value(archive::machine_register(numbers, i)),
            Call::SetRegister(i, x) => {
                let MachineAnswer { number, machine } = archive::machine_set_register(numbers, i, x);
                self.numbers = machine;
                number.to_string()
            }
            Call::Pc => format!("0 {}", archive::machine_pc(numbers)),
            Call::UpdatePc(x) => {
                self.numbers = archive::machine_update_pc(numbers, x);
                done()
            }
            Call::CommitPc => {
                self.numbers = archive::machine_commit_pc(numbers);
                done()
            }
            Call::Version => format!("0 {}", archive::machine_version(numbers)),
            Call::Cycles => format!("0 {}", archive::machine_cycles(numbers)),
            Call::SetCycles(x) => {
                self.numbers = archive::machine_set_cycles(numbers, x);
                done()
            }
            Call::MaxCycles => format!("0 {}", archive::machine_max_cycles(numbers)),
            Call::SetMaxCycles(x) => {
                self.numbers = archive::machine_set_max_cycles(numbers, x);
                done()
            }
            Call::LoadData { id, offset, length } => {
                let (directory, bytes) = (&self.directory(sources, id)[..], &sources.bytes[..]);
                let found = archive::find_data(Sources { directory, bytes }, id, offset, length);
                let Found { number, start, count, full } = found;
                format!("{number} {full} {}", hex(&bytes[start as usize..][..count as usize]))
            }
            Call::Track { start, length, id, offset } => {
                archive::track_pages(storage.tracked(), memory, start, length, id, offset).to_string()
            }
            Call::Untrack { start, length } => {
                archive::untrack_pages(storage.tracked(), memory, start, length).to_string()
            }
            Call::Context { address, id, offset, length, size_address } => {
                let lent = Sources { directory: &self.directory(sources, id), bytes: &sources.bytes };
                let tracked = self.storage.tracked();
                let ContextStored { number, used, stored, full } =
                    archive::context_store_bytes(tracked, lent, memory, address, id, offset, length, size_address);
                self.numbers.memory.used = used;
                format!("{number} {stored} {full}")
            }
            Call::Mark { id, offset, actions } => {
                let actions = self.actions(&actions);
                archive::mark_program(self.storage.tracked(), &actions, memory, id, offset).to_string()
            }
            Call::Snapshot { name, records, pages } => self.snapshot(pairs, name, records, pages),
            Call::Resume { name } => match pairs.get(&name) {
                Some(pair) => self.resume(sources, pair),
                None => return no_files(&name),
            },
            Call::Dump => self.dump(),
            Call::Raw => self.raw(),
        })
    }

    /// The outputs have so many bytes. A refused snapshot has written none.
    fn snapshot(&mut self, pairs: &mut Pairs, name: String, records: u64, pages: u64) -> String {
        let room = |bytes: u64| bytes.min(MOST_ROOM) as usize;
        let (mut file, mut images) = (output(room(records)), output(room(pages)));
        let tracked = self.storage.tracked();
        let Made { number, records, pages } = archive::make_snapshot(tracked, &mut file, &mut images, self.numbers);
        let written = |count: u64, each| if number == 0 { count.saturating_mul(each) } else { 0 };
        let record_file = front(file, written(records, FILE_RECORD));
        let page_file = front(images, written(pages, PAGE));
        if number == 0 {
            pairs.insert(name, Pair { records: record_file, pages: page_file });
        }
        format!("{number} {records} {pages}")
    }

    fn resume(&mut self, sources: &HeldSources, pair: &Pair) -> String {
        let lent = Sources { directory: &self.directory(sources, pair.first_id()), bytes: &sources.bytes };
        let tracked = self.storage.tracked();
        let MachineAnswer { number, machine } = archive::resume(tracked, lent, pair.lent(), self.numbers);
        self.numbers = machine;
        number.to_string()
    }

    /// By the port's own loads, flags and records.
    fn dump(&mut self) -> String {
        let (own, memory) = (self.own(), self.numbers.memory);
        let storage = &mut self.storage;
        let refused = |number| format!("{number} 0 0 0 0");
        let size = own.memory_size(memory);
        let mut out = output(size as usize);
        match own.load_bytes(storage.lent(), &mut out, memory, 0, size) {
            0 => {}
            number => return refused(number),
        }
        let bytes = hash(&out);
        // of no page: the records' length, also where the memory has no page
        match archive::untrack_pages(storage.tracked(), memory, 0, 0) {
            0 => {}
            number => return refused(number),
        }
        let (mut flags, mut records) = (vec![], String::new());
        for page in 0..own.memory_pages(memory) {
            match own.fetch_flag(storage.lent(), memory, page) {
                Value { number: 0, value } => flags.push(value as u8),
                Value { number, .. } => return refused(number),
            }
            match archive::page_record(storage.tracked(), memory, page) {
                Recorded { number: 0, tracked: 0, .. } => {}
                Recorded { number: 0, id, offset, flag, .. } => records += &format!(" {page}:{id}:{offset}:{flag}"),
                Recorded { number, .. } => return refused(number),
            }
        }
        format!("0 {size} {} {bytes} {}{records}", own.lr(memory), hex(&flags))
    }

    /// Of what is lent now, right or wrong.
    fn raw(&mut self) -> String {
        let Lent { slots, area, .. } = self.storage.lent();
        let slots: Vec<u8> = slots.iter().flat_map(|slot| slot.to_le_bytes()).collect();
        format!("0 {} {} {}", hash(area), hash(&slots), self.numbers.memory.used)
    }
}

// ---- the host

#[derive(Default)]
pub struct Port {
    machines: [Option<Machine>; 10],
    sources: HeldSources,
    pairs: Pairs,
}

impl Port {
    fn machine(&mut self, machine: usize) -> Result<&mut Machine, Fault> {
        self.machines[machine].as_mut().ok_or_else(|| absent(machine))
    }

    /// The storage has other contents before, so that what `fresh` leaves unwritten is seen. The memory's own `fresh`
    /// is run beside the machine's, on storage of its own: it must answer and leave the same.
    fn fresh(&mut self, machine: usize, size: u64, slots: u64, version: u32, max: u64) -> Result<String, Fault> {
        let area = Held::<u8>::fits(slots.saturating_mul(PAGE))?;
        let pages = (size / PAGE).min(MOST_PAGES) as usize;
        self.machines[machine] = None;
        let (mut storage, mut beside) = (Storage::new(pages, area), Storage::new(pages, area));
        let MachineAnswer { number, machine: numbers } = archive::machine_fresh(storage.tracked(), size, version, max);
        let made = Machine { numbers, storage, odd: machine % 2 == 1 };
        let fresh = made.own().fresh(beside.lent(), size);
        if fresh != (Fresh { number, memory: numbers.memory }) || !made.storage.same_memory(&beside) {
            return Err("the memory of a fresh machine is not a fresh memory".into());
        }
        if number == 0 {
            self.machines[machine] = Some(made);
        }
        Ok(number.to_string())
    }
}

fn absent(machine: usize) -> Fault {
    format!("no machine {machine}")
}

impl Host for Port {
    fn answer(&mut self, line: Line) -> Result<Option<String>, Fault> {
        Ok(Some(match line {
            Line::Source { id, bytes } => {
                let HeldSources { directory, bytes: held } = &mut self.sources;
                directory.extend([id, held.len() as u64, bytes.len() as u64]);
                *held = [&held[..], &bytes].concat().into();
                return Ok(None);
            }
            Line::Entry { id, start, length } => {
                self.sources.directory.extend([id, start, length]);
                return Ok(None);
            }
            Line::File { name, records, pages } => {
                self.pairs.insert(name, Pair { records: records.into(), pages: pages.into() });
                return Ok(None);
            }
            Line::Lend { machine, lengths } => {
                self.machine(machine)?.storage.lend(lengths)?;
                return Ok(None);
            }
            Line::Slot { machine, page, number } => {
                self.machine(machine)?.storage.write_slot(page, number);
                return Ok(None);
            }
            Line::Used { machine, number } => {
                self.machine(machine)?.numbers.memory.used = number;
                return Ok(None);
            }
            Line::Fresh { machine, size, slots, version, max } => self.fresh(machine, size, slots, version, max)?,
            Line::RoundUp(x) => format!("0 {}", archive::round_page_up(x)),
            Line::RoundDown(x) => format!("0 {}", archive::round_page_down(x)),
            Line::PageIndices { address, size } => {
                let archive::Indices { number, first, last } = archive::get_page_indices(address, size);
                format!("{number} {first} {last}")
            }
            Line::Show { name } => match self.pairs.get(&name) {
                Some(Pair { records, pages }) => format!("0 {} {} {}", hex(records), pages.len(), hash(pages)),
                None => return no_files(&name),
            },
            Line::Call { machine, call } => {
                let Port { machines, sources, pairs } = self;
                let there = machines[machine].as_mut().ok_or_else(|| absent(machine))?;
                there.call(sources, pairs, call)?
            }
        }))
    }
}

fn main() -> std::process::ExitCode {
    callscript::main_of(&mut Port::default())
}
