//! The oracle: the upstream crate, unchanged, behind the call script.
//!
//! What the crate has not is written here after document 01: the directory of sources, the record
//! file, and outputs of a given length. Where the Rust panics the answer is `panic`, and so is every
//! later one of that machine until it is fresh again. Slots are no matter of the Rust: `fresh` passes
//! over their number, and a machine whose lent storage a script changes by `lend`, `slot` or `used`
//! answers `outside` until it is fresh. What such a machine writes is not known either: a pair of
//! files that its snapshot would have written is shown as `outside`, and a machine resumed from it
//! is outside too.

// the Rust has no slots to lend, and reads no line that speaks of them
#[allow(dead_code)]
#[path = "../hosts/callscript.rs"]
pub mod callscript;
mod recordfile;

use callscript::{Call, Fault, Host, Layer, Line, UNWRITTEN, Width, hash, hex};
use ckb_vm::elf::{LoadingAction, ProgramMetadata};
use ckb_vm::machine::{CoreMachine, DefaultCoreMachine, SupportMachine};
use ckb_vm::memory::{
    FLAG_DIRTY, Memory, get_page_indices, load_c_string_byte_by_byte, round_page_down, round_page_up,
    sparse::SparseMemory, wxorx::WXorXMemory,
};
use ckb_vm::snapshot2::{DataSource, Snapshot2Context};
use ckb_vm::{Bytes, Error, RISCV_PAGESIZE};
use recordfile::{RECORD, decode, encode};
use std::cell::RefCell;
use std::collections::{BTreeMap, HashMap};
use std::panic::{AssertUnwindSafe, catch_unwind};
use std::rc::Rc;

const PANIC: &str = "panic";
const OUTSIDE: &str = "outside";
// the numbers of document 01 that the Rust has no error for
const OUTPUT_TOO_SHORT: u32 = 8;
const BAD_RECORD_FILE: u32 = 11;

// ---- sources

#[derive(Default)]
struct Directory {
    bytes: Vec<u8>,
    /// id, start, length
    entries: Vec<[u64; 3]>,
}

impl Directory {
    /// "The first entry with an id decides; no entry, or one whose range leaves the bytes, or an
    /// offset above its length" finds nothing. "Otherwise the data is the smaller of the wanted
    /// length and what remains, .. with the remaining full length."
    fn find(&self, id: u64, offset: u64, length: u64) -> Option<(&[u8], u64)> {
        let [_, start, whole] = *self.entries.iter().find(|entry| entry[0] == id)?;
        let end = start.checked_add(whole)?;
        let item = self.bytes.get(usize::try_from(start).ok()?..usize::try_from(end).ok()?)?;
        let rest = item.get(usize::try_from(offset).ok()?..)?;
        let full = rest.len() as u64;
        Some((&rest[..full.min(length) as usize], full))
    }
}

#[derive(Clone, Default)]
struct Sources(Rc<RefCell<Directory>>);

impl std::fmt::Debug for Sources {
    fn fmt(&self, f: &mut std::fmt::Formatter) -> std::fmt::Result {
        f.write_str("sources")
    }
}

impl DataSource<u64> for Sources {
    fn load_data(&self, id: &u64, offset: u64, length: u64) -> Option<(Bytes, u64)> {
        let directory = self.0.borrow();
        let (data, full) = directory.find(*id, offset, length)?;
        Some((Bytes::from(data.to_vec()), full))
    }
}

// ---- machines

type Core = DefaultCoreMachine<u64, WXorXMemory<SparseMemory<u64>>>;
type Context = Snapshot2Context<u64, Sources>;

struct Running {
    core: Core,
    context: Context,
}

enum Machine {
    Absent,
    Running(Box<Running>),
    /// answers this word until it is fresh
    Stopped(&'static str),
}

/// Record file and page file; none where a machine that is compared no further wrote them.
type Files = HashMap<String, Option<(Vec<u8>, Vec<u8>)>>;

// ---- answers

fn number(e: &Error) -> u32 {
    match e {
        Error::InvalidVersion => 1,
        Error::MemOutOfBound => 2,
        Error::MemPageUnalignedAccess => 3,
        Error::MemWriteOnExecutablePage => 4,
        Error::MemWriteOnFreezedPage => 5,
        Error::SnapshotDataLoadError => 6,
        other => unreachable!("no ported call gives {other:?}"),
    }
}

/// A call that answers its number alone.
fn done(r: Result<(), Error>) -> String {
    match r {
        Ok(()) => "0".into(),
        Err(e) => number(&e).to_string(),
    }
}

/// A call that answers one value.
fn value<T: Into<u64>>(r: Result<T, Error>) -> String {
    match r {
        Ok(v) => ok(v.into()),
        Err(e) => format!("{} 0", number(&e)),
    }
}

/// A call that answers two values.
fn pair(r: Result<(u64, u64), Error>) -> String {
    match r {
        Ok((a, b)) => format!("0 {a} {b}"),
        Err(e) => format!("{} 0 0", number(&e)),
    }
}

fn ok(v: u64) -> String {
    format!("0 {v}")
}

/// One expression for both memories: they share a trait, not a type.
macro_rules! on {
    ($core:expr, $layer:expr, $memory:ident => $call:expr) => {
        match $layer {
            Layer::WXorX => {
                let $memory = $core.memory_mut();
                $call
            }
            Layer::Sparse => {
                let $memory = $core.memory_mut().inner_mut();
                $call
            }
        }
    };
}

impl Running {
    fn store(&mut self, layer: Layer, width: Width, address: u64, v: u64) -> Result<(), Error> {
        on!(self.core, layer, m => match width {
            Width::One => m.store8(&address, &v),
            Width::Two => m.store16(&address, &v),
            Width::Four => m.store32(&address, &v),
            Width::Eight => m.store64(&address, &v),
        })
    }

    fn load(&mut self, layer: Layer, width: Width, address: u64) -> Result<u64, Error> {
        on!(self.core, layer, m => match width {
            Width::One => m.load8(&address),
            Width::Two => m.load16(&address),
            Width::Four => m.load32(&address),
            Width::Eight => m.load64(&address),
        })
    }

    fn execute_load(&mut self, layer: Layer, width: Width, address: u64) -> Result<u64, Error> {
        on!(self.core, layer, m => match width {
            Width::Two => m.execute_load16(address).map(u64::from),
            Width::Four => m.execute_load32(address).map(u64::from),
            Width::One | Width::Eight => unreachable!("no line asks for it"),
        })
    }

    /// "No refusal writes; output past the size stays."
    fn load_bytes(&mut self, layer: Layer, address: u64, size: u64, room: usize) -> String {
        let mut out = vec![UNWRITTEN; room];
        let n = match on!(self.core, layer, m => m.load_bytes(address, size)) {
            Ok(data) if data.len() > room => OUTPUT_TOO_SHORT,
            Ok(data) => {
                out[..data.len()].copy_from_slice(&data);
                0
            }
            Err(e) => number(&e),
        };
        format!("{n} {}", hex(&out))
    }

    /// "at each byte: past the machine 2; zero byte done; output full 8. The bytes read so far are at
    /// the front of the output". The Rust reads on past a full output, and drops what it read before
    /// a refusal: there the bytes are read again, one by one.
    fn load_c_string(&mut self, layer: Layer, address: u64, room: usize) -> String {
        let mut out = vec![UNWRITTEN; room];
        match on!(self.core, layer, m => load_c_string_byte_by_byte(m, &address)) {
            Ok(text) if text.len() <= room => {
                out[..text.len()].copy_from_slice(&text);
                format!("0 {} {}", text.len(), hex(&out))
            }
            Ok(text) => {
                out.copy_from_slice(&text[..room]);
                format!("{OUTPUT_TOO_SHORT} 0 {}", hex(&out))
            }
            Err(_) => {
                let mut read = 0;
                let n = loop {
                    match self.load(layer, Width::One, address.wrapping_add(read as u64)) {
                        Err(e) => break number(&e),
                        Ok(_) if read == room => break OUTPUT_TOO_SHORT,
                        Ok(byte) => out[read] = byte as u8,
                    }
                    read += 1;
                };
                format!("{n} 0 {}", hex(&out))
            }
        }
    }

    /// The tracked pages, from the context's own Debug text: they are private, and the file is
    /// compiled as it stands.
    fn tracked(&self) -> BTreeMap<u64, (u64, u64, u64)> {
        let text = format!("{:?}", self.context);
        let pages =
            text.strip_prefix("Snapshot2Context { pages: {").and_then(|t| t.strip_suffix("}, data_source: sources }"));
        let numbers: Vec<u64> = pages
            .expect("the derived Debug of the context")
            .split(|c: char| !c.is_ascii_digit())
            .filter(|word| !word.is_empty())
            .map(|word| word.parse().expect("digits"))
            .collect();
        numbers.chunks(4).map(|n| (n[0], (n[1], n[2], n[3]))).collect()
    }

    fn dump(&mut self) -> Result<String, Error> {
        let size = self.core.memory().memory_size() as u64;
        let memory = self.core.memory_mut();
        let bytes = memory.load_bytes(0, size)?;
        let flags =
            (0..size / RISCV_PAGESIZE as u64).map(|page| memory.fetch_flag(page)).collect::<Result<Vec<_>, _>>()?;
        let mut answer = format!("0 {size} {} {} {}", memory.lr(), hash(&bytes), hex(&flags));
        for (page, (id, offset, flag)) in self.tracked() {
            if flags[page as usize] & FLAG_DIRTY == 0 {
                answer += &format!(" {page}:{id}:{offset}:{flag}");
            }
        }
        Ok(answer)
    }

    fn snapshot(&mut self, files: &mut Files, name: String, records: u64, pages: u64) -> String {
        match self.context.make_snapshot(&mut self.core) {
            Err(e) => format!("{} 0 0", number(&e)),
            Ok(snapshot) => {
                let written = encode(&snapshot);
                if written.0.len() as u64 > records || written.1.len() as u64 > pages {
                    return format!("{OUTPUT_TOO_SHORT} 0 0");
                }
                let answer = format!("0 {} {}", written.0.len() / RECORD, written.1.len() / RISCV_PAGESIZE);
                files.insert(name, Some(written));
                answer
            }
        }
    }

    fn call(&mut self, files: &mut Files, call: Call) -> String {
        let Running { core, context } = self;
        match call {
            Call::StoreBytes { layer, address, bytes } => done(on!(core, layer, m => m.store_bytes(address, &bytes))),
            Call::StoreByte { layer, address, size, value } => {
                done(on!(core, layer, m => m.store_byte(address, size, value)))
            }
            Call::Store { layer, width, address, value } => done(self.store(layer, width, address, value)),
            Call::Load { layer, width, address } => value(self.load(layer, width, address)),
            Call::ExecuteLoad { layer, width, address } => value(self.execute_load(layer, width, address)),
            Call::LoadBytes { layer, address, size, room } => self.load_bytes(layer, address, size, room),
            Call::LoadCString { layer, address, room } => self.load_c_string(layer, address, room),
            Call::InitPages { layer, address, size, flags, lead, bytes } => {
                let source = Some(Bytes::from(bytes));
                done(on!(core, layer, m => m.init_pages(address, size, flags, source, lead)))
            }
            Call::FetchFlag { page } => value(core.memory_mut().fetch_flag(page)),
            Call::SetFlag { page, flag } => done(core.memory_mut().set_flag(page, flag)),
            Call::ClearFlag { page, flag } => done(core.memory_mut().clear_flag(page, flag)),
            Call::Lr => ok(*core.memory().lr()),
            Call::SetLr(x) => done(Ok(core.memory_mut().set_lr(&x))),
            Call::Register(i) => ok(core.registers()[i as usize]),
            Call::SetRegister(i, x) => done(Ok(core.set_register(i as usize, x))),
            Call::Pc => ok(*core.pc()),
            Call::UpdatePc(x) => done(Ok(core.update_pc(x))),
            Call::CommitPc => done(Ok(core.commit_pc())),
            Call::Version => ok(core.version().into()),
            Call::Cycles => ok(core.cycles()),
            Call::SetCycles(x) => done(Ok(core.set_cycles(x))),
            Call::MaxCycles => ok(core.max_cycles()),
            Call::SetMaxCycles(x) => done(Ok(core.set_max_cycles(x))),
            Call::LoadData { id, offset, length } => match context.load_data(&id, offset, length) {
                Ok((data, full)) => format!("0 {full} {}", hex(&data)),
                Err(e) => format!("{} 0 -", number(&e)),
            },
            Call::Track { start, length, id, offset } => done(context.track_pages(core, start, length, &id, offset)),
            Call::Untrack { start, length } => done(context.untrack_pages(core, start, length)),
            Call::Context { address, id, offset, length, size_address } => {
                pair(context.store_bytes(core, address, &id, offset, length, size_address))
            }
            Call::Mark { id, offset, actions } => {
                let actions = actions
                    .into_iter()
                    .map(|a| LoadingAction {
                        addr: a.address,
                        size: a.size,
                        flags: a.flags,
                        source: a.start..a.end,
                        offset_from_addr: a.lead,
                    })
                    .collect();
                done(context.mark_program(core, &ProgramMetadata { actions, entry: 0 }, &id, offset))
            }
            Call::Snapshot { name, records, pages } => self.snapshot(files, name, records, pages),
            Call::Resume { name } => {
                let (records, pages) = files[&name].as_ref().expect("known files");
                match decode(records, pages) {
                    None => BAD_RECORD_FILE.to_string(),
                    Some(snapshot) => done(context.resume(core, &snapshot)),
                }
            }
            Call::Dump => self.dump().unwrap_or_else(|e| format!("{} 0 0 0 0", number(&e))),
            Call::Raw => OUTSIDE.into(),
        }
    }
}

// ---- the host

pub struct Oracle {
    sources: Sources,
    files: Files,
    machines: [Machine; 10],
}

impl Default for Oracle {
    fn default() -> Self {
        let machines = std::array::from_fn(|_| Machine::Absent);
        Oracle { sources: Sources::default(), files: Files::default(), machines }
    }
}

impl Oracle {
    fn fresh(&mut self, machine: usize, size: u64, version: u32, max: u64) -> String {
        let made = catch_unwind(|| Core::new_with_memory(0, version, max, size as usize));
        let (state, answer) = match made {
            Ok(core) => {
                let context = Context::new(self.sources.clone());
                (Machine::Running(Box::new(Running { core, context })), "0")
            }
            Err(_) => (Machine::Stopped(PANIC), PANIC),
        };
        self.machines[machine] = state;
        answer.into()
    }

    /// A machine whose storage is no longer the Rust's.
    fn leaves_domain(&mut self, machine: usize) -> Result<Option<String>, Fault> {
        match &mut self.machines[machine] {
            Machine::Absent => Err(absent(machine)),
            state => {
                if let Machine::Running(_) = state {
                    *state = Machine::Stopped(OUTSIDE);
                }
                Ok(None)
            }
        }
    }

    fn call(&mut self, machine: usize, call: Call) -> Result<String, Fault> {
        let Oracle { files, machines, .. } = self;
        let state = &mut machines[machine];
        if let Machine::Absent = state {
            return Err(absent(machine));
        }
        if let Call::Resume { name } = &call {
            match files.get(name) {
                None => return Err(format!("no files {name:.40}")),
                Some(None) if matches!(state, Machine::Running(_)) => *state = Machine::Stopped(OUTSIDE),
                Some(_) => {}
            }
        }
        let written = match &call {
            Call::Snapshot { name, .. } => Some(name.clone()),
            _ => None,
        };
        let stopped = match state {
            Machine::Absent => unreachable!("seen above"),
            Machine::Stopped(word) => *word,
            Machine::Running(running) => match catch_unwind(AssertUnwindSafe(|| running.call(files, call))) {
                Ok(answer) => return Ok(answer),
                Err(_) => {
                    *state = Machine::Stopped(PANIC);
                    PANIC
                }
            },
        };
        if let Some(name) = written {
            files.insert(name, None);
        }
        Ok(stopped.into())
    }
}

fn absent(machine: usize) -> Fault {
    format!("no machine {machine}")
}

impl Host for Oracle {
    fn answer(&mut self, line: Line) -> Result<Option<String>, Fault> {
        Ok(Some(match line {
            Line::Source { id, bytes } => {
                let mut directory = self.sources.0.borrow_mut();
                let entry = [id, directory.bytes.len() as u64, bytes.len() as u64];
                directory.entries.push(entry);
                directory.bytes.extend(bytes);
                return Ok(None);
            }
            Line::Entry { id, start, length } => {
                self.sources.0.borrow_mut().entries.push([id, start, length]);
                return Ok(None);
            }
            Line::File { name, records, pages } => {
                self.files.insert(name, Some((records, pages)));
                return Ok(None);
            }
            Line::Lend { machine, .. } | Line::Slot { machine, .. } | Line::Used { machine, .. } => {
                return self.leaves_domain(machine);
            }
            Line::Fresh { machine, size, version, max, slots: _ } => self.fresh(machine, size, version, max),
            Line::RoundUp(x) => ok(round_page_up(x)),
            Line::RoundDown(x) => ok(round_page_down(x)),
            Line::PageIndices { address, size } => {
                catch_unwind(|| get_page_indices(address, size)).map_or(PANIC.into(), pair)
            }
            Line::Show { name } => match self.files.get(&name) {
                None => return Err(format!("no files {name:.40}")),
                Some(None) => OUTSIDE.into(),
                Some(Some((records, pages))) => format!("0 {} {} {}", hex(records), pages.len(), hash(pages)),
            },
            Line::Call { machine, call } => self.call(machine, call)?,
        }))
    }
}

fn main() -> std::process::ExitCode {
    // a panic of the Rust is an answer
    std::panic::set_hook(Box::new(|_| {}));
    callscript::main_of(&mut Oracle::default())
}
