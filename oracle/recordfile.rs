//! Document 01's record file and page file, to and from the Rust's snapshot.

use ckb_vm::RISCV_PAGESIZE;
use ckb_vm::snapshot2::Snapshot2;

const WORDS: usize = 6;
/// Bytes of a record.
pub const RECORD: usize = 8 * WORDS;
const FEWEST_RECORDS: usize = 9;
const MOST_RECORDS: usize = 1_033;

const STATE: u64 = 1;
const REGISTERS: u64 = 2;
const SOURCE_RUN: u64 = 3;
const DIRTY_RUN: u64 = 4;

type Record = [u64; WORDS];

/// Record file and page file of a snapshot.
pub fn encode(s: &Snapshot2<u64>) -> (Vec<u8>, Vec<u8>) {
    let mut records: Vec<Record> = vec![];
    let mut pages = vec![];
    records.push([STATE, s.version.into(), s.pc, s.cycles, s.max_cycles, s.load_reservation_address]);
    for (i, r) in s.registers.chunks(4).enumerate() {
        records.push([REGISTERS, 4 * i as u64, r[0], r[1], r[2], r[3]]);
    }
    for (address, flag, id, offset, length) in &s.pages_from_source {
        records.push([SOURCE_RUN, *address, (*flag).into(), *id, *offset, *length]);
    }
    for (address, flag, content) in &s.dirty_pages {
        let place = (pages.len() / RISCV_PAGESIZE) as u64;
        records.push([DIRTY_RUN, *address, (*flag).into(), (content.len() / RISCV_PAGESIZE) as u64, place, 0]);
        pages.extend_from_slice(content);
    }
    (records.iter().flatten().flat_map(|word| word.to_le_bytes()).collect(), pages)
}

/// The snapshot of a record file with its page file; nothing where they are not in document 01's form.
pub fn decode(file: &[u8], pages: &[u8]) -> Option<Snapshot2<u64>> {
    let (chunks, rest) = file.as_chunks::<RECORD>();
    if !rest.is_empty() || !(FEWEST_RECORDS..=MOST_RECORDS).contains(&chunks.len()) {
        return None;
    }
    let records: Vec<Record> = chunks.iter().map(words).collect();
    let (head, runs) = records.split_at(FEWEST_RECORDS);
    let [STATE, version, pc, cycles, max_cycles, load_reservation_address] = head[0] else { return None };
    let mut snapshot = Snapshot2 {
        pages_from_source: vec![],
        dirty_pages: vec![],
        version: version.try_into().ok()?,
        registers: [0; 32],
        pc,
        cycles,
        max_cycles,
        load_reservation_address,
    };
    for (i, record) in head[1..].iter().enumerate() {
        if record[0] != REGISTERS || record[1] != 4 * i as u64 {
            return None;
        }
        snapshot.registers[4 * i..4 * i + 4].copy_from_slice(&record[2..]);
    }
    // what is left of the page file, and how many pages are behind
    let (mut rest, mut place) = (pages, 0u64);
    for run in runs {
        let flag = u8::try_from(run[2]).ok()?;
        match *run {
            [SOURCE_RUN, address, _, id, offset, length] if snapshot.dirty_pages.is_empty() => {
                snapshot.pages_from_source.push((address, flag, id, offset, length));
            }
            [DIRTY_RUN, address, _, count, at, 0] if at == place => {
                let length = usize::try_from(count).ok()?.checked_mul(RISCV_PAGESIZE)?;
                let (content, after) = rest.split_at_checked(length)?;
                snapshot.dirty_pages.push((address, flag, content.to_vec()));
                (rest, place) = (after, place + count);
            }
            _ => return None,
        }
    }
    rest.is_empty().then_some(snapshot)
}

fn words(record: &[u8; RECORD]) -> Record {
    let (words, _) = record.as_chunks::<8>();
    std::array::from_fn(|i| u64::from_le_bytes(words[i]))
}
