//! The call script of docs/CALL-SCRIPT.md: its lines, its words and its answers.
//!
//! It knows no memory: a `Host` is given each line, read, and writes the answer. The oracle is one
//! host, over the upstream Rust; the port's runner is another.

use std::io::{self, BufRead, Write};

/// The most bytes that a line may name or have lent. A line that asks for more is none of the format.
pub const MOST_BYTES: u64 = 1 << 28;
/// What an output is filled with before a call.
pub const UNWRITTEN: u8 = 0xee;
pub const NONE_OF_THESE: &str = "?";

/// Which of the two memories a call is made on: the letters `s.` and `w.`.
#[derive(Clone, Copy)]
pub enum Layer {
    Sparse,
    WXorX,
}

/// Bytes of a number that is stored or loaded.
#[derive(Clone, Copy)]
pub enum Width {
    One,
    Two,
    Four,
    Eight,
}

/// One action of `mark`: six numbers.
pub struct Action {
    pub address: u64,
    pub size: u64,
    pub flags: u8,
    pub start: u64,
    pub end: u64,
    pub lead: u64,
}

/// A line, read. The lengths of `lend` are elements of slot numbers, flags and record words, and bytes of
/// the area; none: the whole again.
pub enum Line {
    Source { id: u64, bytes: Vec<u8> },
    Entry { id: u64, start: u64, length: u64 },
    Fresh { machine: usize, size: u64, slots: u64, version: u32, max: u64 },
    File { name: String, records: Vec<u8>, pages: Vec<u8> },
    Lend { machine: usize, lengths: Option<[u64; 4]> },
    Slot { machine: usize, page: u64, number: u16 },
    Used { machine: usize, number: u64 },
    RoundUp(u64),
    RoundDown(u64),
    PageIndices { address: u64, size: u64 },
    Show { name: String },
    Call { machine: usize, call: Call },
}

/// A call on a machine.
pub enum Call {
    StoreBytes { layer: Layer, address: u64, bytes: Vec<u8> },
    StoreByte { layer: Layer, address: u64, size: u64, value: u8 },
    Store { layer: Layer, width: Width, address: u64, value: u64 },
    Load { layer: Layer, width: Width, address: u64 },
    ExecuteLoad { layer: Layer, width: Width, address: u64 },
    LoadBytes { layer: Layer, address: u64, size: u64, room: usize },
    LoadCString { layer: Layer, address: u64, room: usize },
    InitPages { layer: Layer, address: u64, size: u64, flags: u8, lead: u64, bytes: Vec<u8> },
    FetchFlag { page: u64 },
    SetFlag { page: u64, flag: u8 },
    ClearFlag { page: u64, flag: u8 },
    Lr,
    SetLr(u64),
    Register(u64),
    SetRegister(u64, u64),
    Pc,
    UpdatePc(u64),
    CommitPc,
    Version,
    Cycles,
    SetCycles(u64),
    MaxCycles,
    SetMaxCycles(u64),
    LoadData { id: u64, offset: u64, length: u64 },
    Track { start: u64, length: u64, id: u64, offset: u64 },
    Untrack { start: u64, length: u64 },
    Context { address: u64, id: u64, offset: u64, length: u64, size_address: u64 },
    Mark { id: u64, offset: u64, actions: Vec<Action> },
    Snapshot { name: String, records: u64, pages: u64 },
    Resume { name: String },
    Dump,
    Raw,
}

/// Why a line is none of the format; said on standard error beside the `?`.
pub type Fault = String;

type Read<T> = Result<T, Fault>;

// ---- words

/// The words of a line, taken from the front.
struct Words<'a>(std::vec::IntoIter<&'a str>);

impl<'a> Words<'a> {
    fn word(&mut self) -> Read<&'a str> {
        self.0.next().ok_or_else(|| "a word is missing".into())
    }

    fn number(&mut self) -> Read<u64> {
        number(self.word()?)
    }

    fn at_most(&mut self, most: u64) -> Read<u64> {
        let n = self.number()?;
        if n > most { Err(format!("{n} is above {most}")) } else { Ok(n) }
    }

    fn byte(&mut self) -> Read<u8> {
        Ok(self.at_most(u8::MAX.into())? as u8)
    }

    fn machine(&mut self) -> Read<usize> {
        Ok(self.at_most(9)? as usize)
    }

    /// The length of an output that is lent.
    fn room(&mut self) -> Read<usize> {
        Ok(self.at_most(MOST_BYTES)? as usize)
    }

    fn bytes(&mut self) -> Read<Vec<u8>> {
        bytes(self.word()?)
    }

    fn name(&mut self) -> Read<String> {
        Ok(self.word()?.into())
    }

    fn left(&self) -> usize {
        self.0.len()
    }
}

/// A decimal number up to 2^64-1: digits alone.
fn number(word: &str) -> Read<u64> {
    if word.is_empty() || !word.bytes().all(|b| b.is_ascii_digit()) {
        return Err(format!("not a number: {word}"));
    }
    word.parse().map_err(|_| format!("above 2^64-1: {word}"))
}

/// Two lowercase hex digits.
fn hex_byte(digits: &[u8]) -> Option<u8> {
    let digit = |b: u8| match b {
        b'0'..=b'9' => Some(b - b'0'),
        b'a'..=b'f' => Some(b - b'a' + 10),
        _ => None,
    };
    match digits {
        [high, low] => Some(digit(*high)? << 4 | digit(*low)?),
        _ => None,
    }
}

/// `-`, hex digits, `rep:XX:N` or `gen:SEED:N`.
fn bytes(word: &str) -> Read<Vec<u8>> {
    let bad = || format!("not bytes: {word:.40}");
    let count = |n: &str| match number(n)? {
        n if n > MOST_BYTES => Err(format!("{n} bytes are above {MOST_BYTES}")),
        n => Ok(n as usize),
    };
    match word.split(':').collect::<Vec<_>>()[..] {
        ["-"] => Ok(vec![]),
        [digits] if !digits.is_empty() => {
            digits.as_bytes().chunks(2).map(hex_byte).collect::<Option<_>>().ok_or_else(bad)
        }
        ["rep", byte, n] => Ok(vec![hex_byte(byte.as_bytes()).ok_or_else(bad)?; count(n)?]),
        ["gen", seed, n] => Ok(generated(number(seed)?, count(n)?)),
        _ => Err(bad()),
    }
}

/// `gen:SEED:N`: x starts as the seed, and the top byte is taken after each step.
fn generated(seed: u64, n: usize) -> Vec<u8> {
    let mut x = seed;
    (0..n)
        .map(|_| {
            x = x.wrapping_mul(6364136223846793005).wrapping_add(1442695040888963407);
            (x >> 56) as u8
        })
        .collect()
}

// ---- lines

/// A line of the format; nothing where it is blank or a comment.
pub fn read(text: &str) -> Read<Option<Line>> {
    let mut words = Words(text.split_ascii_whitespace().collect::<Vec<_>>().into_iter());
    let Ok(first) = words.word() else { return Ok(None) };
    if first.starts_with('#') {
        return Ok(None);
    }
    let w = &mut words;
    let line = match first {
        "source" => Line::Source { id: w.number()?, bytes: w.bytes()? },
        "entry" => Line::Entry { id: w.number()?, start: w.number()?, length: w.number()? },
        "fresh" => Line::Fresh {
            machine: w.machine()?,
            size: w.number()?,
            slots: w.number()?,
            version: w.at_most(u32::MAX.into())? as u32,
            max: w.number()?,
        },
        "file" => Line::File { name: w.name()?, records: w.bytes()?, pages: w.bytes()? },
        "lend" => Line::Lend {
            machine: w.machine()?,
            lengths: match w.left() {
                0 => None,
                _ => Some([w.number()?, w.number()?, w.number()?, w.number()?]),
            },
        },
        "slot" => Line::Slot { machine: w.machine()?, page: w.number()?, number: w.at_most(u16::MAX.into())? as u16 },
        "used" => Line::Used { machine: w.machine()?, number: w.number()? },
        "roundup" => Line::RoundUp(w.number()?),
        "rounddown" => Line::RoundDown(w.number()?),
        "page_indices" => Line::PageIndices { address: w.number()?, size: w.number()? },
        "show" => Line::Show { name: w.name()? },
        machine => {
            let machine = match number(machine) {
                Ok(k @ 0..=9) => k as usize,
                _ => return Err(format!("neither a line's first word nor a machine: {machine:.40}")),
            };
            Line::Call { machine, call: call(w)? }
        }
    };
    match words.left() {
        0 => Ok(Some(line)),
        n => Err(format!("{n} words too many")),
    }
}

fn call(w: &mut Words) -> Read<Call> {
    let name = w.word()?;
    if let Some(name) = name.strip_prefix("s.") {
        return memory_call(Layer::Sparse, name, w);
    }
    if let Some(name) = name.strip_prefix("w.") {
        return memory_call(Layer::WXorX, name, w);
    }
    Ok(match name {
        "fetch_flag" => Call::FetchFlag { page: w.number()? },
        "set_flag" => Call::SetFlag { page: w.number()?, flag: w.byte()? },
        "clear_flag" => Call::ClearFlag { page: w.number()?, flag: w.byte()? },
        "lr" => Call::Lr,
        "set_lr" => Call::SetLr(w.number()?),
        "register" => Call::Register(w.number()?),
        "set_register" => Call::SetRegister(w.number()?, w.number()?),
        "pc" => Call::Pc,
        "update_pc" => Call::UpdatePc(w.number()?),
        "commit_pc" => Call::CommitPc,
        "version" => Call::Version,
        "cycles" => Call::Cycles,
        "set_cycles" => Call::SetCycles(w.number()?),
        "max_cycles" => Call::MaxCycles,
        "set_max_cycles" => Call::SetMaxCycles(w.number()?),
        "load_data" => Call::LoadData { id: w.number()?, offset: w.number()?, length: w.number()? },
        "track" => Call::Track { start: w.number()?, length: w.number()?, id: w.number()?, offset: w.number()? },
        "untrack" => Call::Untrack { start: w.number()?, length: w.number()? },
        "context" => Call::Context {
            address: w.number()?,
            id: w.number()?,
            offset: w.number()?,
            length: w.number()?,
            size_address: w.number()?,
        },
        "mark" => {
            let (id, offset) = (w.number()?, w.number()?);
            let mut actions = vec![];
            while w.left() > 0 {
                actions.push(Action {
                    address: w.number()?,
                    size: w.number()?,
                    flags: w.byte()?,
                    start: w.number()?,
                    end: w.number()?,
                    lead: w.number()?,
                });
            }
            Call::Mark { id, offset, actions }
        }
        "snapshot" => Call::Snapshot { name: w.name()?, records: w.number()?, pages: w.number()? },
        "resume" => Call::Resume { name: w.name()? },
        "dump" => Call::Dump,
        "raw" => Call::Raw,
        _ => return Err(format!("no such call: {name:.40}")),
    })
}

fn memory_call(layer: Layer, name: &str, w: &mut Words) -> Read<Call> {
    let address = w.number()?;
    Ok(match name {
        "store_bytes" => Call::StoreBytes { layer, address, bytes: w.bytes()? },
        "store_byte" => Call::StoreByte { layer, address, size: w.number()?, value: w.byte()? },
        "store8" => Call::Store { layer, width: Width::One, address, value: w.number()? },
        "store16" => Call::Store { layer, width: Width::Two, address, value: w.number()? },
        "store32" => Call::Store { layer, width: Width::Four, address, value: w.number()? },
        "store64" => Call::Store { layer, width: Width::Eight, address, value: w.number()? },
        "load8" => Call::Load { layer, width: Width::One, address },
        "load16" => Call::Load { layer, width: Width::Two, address },
        "load32" => Call::Load { layer, width: Width::Four, address },
        "load64" => Call::Load { layer, width: Width::Eight, address },
        "execute_load16" => Call::ExecuteLoad { layer, width: Width::Two, address },
        "execute_load32" => Call::ExecuteLoad { layer, width: Width::Four, address },
        "load_bytes" => Call::LoadBytes { layer, address, size: w.number()?, room: w.room()? },
        "load_c_string" => Call::LoadCString { layer, address, room: w.room()? },
        "init_pages" => Call::InitPages {
            layer,
            address,
            size: w.number()?,
            flags: w.byte()?,
            lead: w.number()?,
            bytes: w.bytes()?,
        },
        _ => return Err(format!("no such call: {name:.40}")),
    })
}

// ---- answers

/// HEX of an answer.
pub fn hex(bytes: &[u8]) -> String {
    const DIGITS: &[u8; 16] = b"0123456789abcdef";
    if bytes.is_empty() {
        return "-".into();
    }
    bytes.iter().flat_map(|b| [DIGITS[usize::from(b >> 4)] as char, DIGITS[usize::from(b & 15)] as char]).collect()
}

/// HASH of an answer: FNV-1a, 64 bits.
pub fn hash(bytes: &[u8]) -> String {
    const PRIME: u64 = 0x100000001b3;
    // a run of zero bytes is a power of the prime
    const ZEROS: u64 = PRIME.wrapping_pow(64);
    let byte = |h: u64, b: &u8| (h ^ u64::from(*b)).wrapping_mul(PRIME);
    let (runs, rest) = bytes.as_chunks::<64>();
    let start = 0xcbf29ce484222325u64;
    let h = runs
        .iter()
        .fold(start, |h, run| if *run == [0; 64] { h.wrapping_mul(ZEROS) } else { run.iter().fold(h, byte) });
    let h = rest.iter().fold(h, byte);
    format!("{h:016x}")
}

/// Who answers the lines of a script.
pub trait Host {
    /// The answer's line; nothing for a line that only sets something up.
    fn answer(&mut self, line: Line) -> Result<Option<String>, Fault>;
}

/// The answer's line to a line of a script, nothing where it asks nothing; or why it is none of the format.
pub fn answer(host: &mut impl Host, text: &str) -> Result<Option<String>, Fault> {
    read(text)?.map_or(Ok(None), |line| host.answer(line))
}

/// Reads a script from standard input and writes its answers. The faults of lines that are none of
/// the format are said on standard error, the first twenty.
pub fn run(host: &mut impl Host) -> io::Result<()> {
    let mut input = io::BufReader::with_capacity(1 << 16, io::stdin().lock());
    let mut output = io::BufWriter::new(io::stdout().lock());
    let (mut text, mut count, mut faults) = (vec![], 0u64, 0u64);
    loop {
        text.clear();
        // before it may wait for more, what is answered is written out
        if input.buffer().is_empty() {
            output.flush()?;
        }
        if input.read_until(b'\n', &mut text)? == 0 {
            return Ok(());
        }
        count += 1;
        match answer(host, &String::from_utf8_lossy(&text)) {
            Ok(Some(answer)) => writeln!(output, "{answer}")?,
            Ok(None) => {}
            Err(fault) => {
                writeln!(output, "{NONE_OF_THESE}")?;
                faults += 1;
                match faults {
                    1..=20 => eprintln!("calls: line {count}: {fault}"),
                    21 => eprintln!("calls: further lines that are none of the format are not listed"),
                    _ => {}
                }
            }
        }
    }
}

/// A runner's `main`: no arguments, the script on standard input; a closed output ends it quietly.
pub fn main_of(host: &mut impl Host) -> std::process::ExitCode {
    if std::env::args_os().len() > 1 {
        eprintln!("usage: oracle|port < SCRIPT (docs/CALL-SCRIPT.md); there are no further words");
        return 2.into();
    }
    match run(host) {
        Err(e) if e.kind() != io::ErrorKind::BrokenPipe => {
            eprintln!("calls: {e}");
            1.into()
        }
        _ => 0.into(),
    }
}
