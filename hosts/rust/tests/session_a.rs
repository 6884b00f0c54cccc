//! Document 01's Session A: the 576 bytes of its record file, and its page file.

mod seeded;

use latchpebble::{Machine, Snapshot, Sources};
use seeded::Seeded;

/// As document 01 prints it.
const LISTING: &str = "\
M 1 0 0 1000 18446744073709551615
S 4096 0 7 3996 4096
D 0 4 1 0
D 8192 4 2 1
";
const RECORD_FILE: usize = 576;
const PAGE: usize = 4_096;
const PAGES: usize = 4;

/// The record file that document 01 prints so. All registers are 0, and they are not printed.
fn file_of(listing: &str) -> Vec<u8> {
    let mut records: Vec<[u64; 6]> = vec![];
    for line in listing.lines() {
        let (letter, rest) = line.split_at(2);
        let mut words: Vec<u64> = rest.split(' ').map(|word| word.parse().unwrap()).collect();
        let kind = match letter {
            "M " => 1,
            "S " => 3,
            "D " => 4,
            other => panic!("no line begins with {other}"),
        };
        if kind == 4 {
            words.push(0);
        }
        words.insert(0, kind);
        records.push(words.try_into().unwrap());
        if kind == 1 {
            records.extend((0..8).map(|i| [2, 4 * i, 0, 0, 0, 0]));
        }
    }
    records.iter().flatten().flat_map(|word| word.to_le_bytes()).collect()
}

/// The text of a record file, with its registers left out after they were seen to be 0.
fn listing_of(file: &[u8]) -> String {
    let (words, rest) = file.as_chunks::<8>();
    assert!(rest.is_empty());
    let (records, rest) = words.as_chunks::<6>();
    assert!(rest.is_empty());
    let mut lines = String::new();
    for record in records {
        let words = record.map(u64::from_le_bytes);
        let (letter, printed) = match words[0] {
            1 => ("M", &words[1..]),
            2 => {
                assert_eq!(words[2..], [0; 4]);
                continue;
            }
            3 => ("S", &words[1..]),
            4 => ("D", &words[1..5]),
            other => panic!("no record has kind {other}"),
        };
        lines += letter;
        printed.iter().for_each(|word| lines += &format!(" {word}"));
        lines += "\n";
    }
    lines
}

#[test]
fn session_a() {
    let item = Seeded(1).bytes(10_000);
    let mut sources = Sources::new();
    sources.add(7, &item);
    let mut machine = Machine::new(1, 1_000, (PAGES * PAGE) as u64).unwrap();
    assert_eq!(machine.context_store_bytes(&sources, 100, 7, 0, 10_000, 16_376), Ok((10_000, 10_000)));
    let mut snapshot = Snapshot::for_pages(PAGES as u64);
    machine.make_snapshot(&mut snapshot).unwrap();

    assert_eq!(snapshot.records().len(), RECORD_FILE);
    assert_eq!(listing_of(snapshot.records()), LISTING);
    assert_eq!(snapshot.records(), file_of(LISTING));

    // what the memory holds: the dirty pages of it are the page file
    let mut image = vec![0; PAGES * PAGE];
    image[100..10_100].copy_from_slice(&item);
    image[16_376..].copy_from_slice(&10_000u64.to_le_bytes());
    assert_eq!(snapshot.pages(), [&image[..PAGE], &image[2 * PAGE..]].concat());

    // resumed elsewhere, it holds the same, and its own snapshot is the same
    let mut second = Machine::new(1, 0, (PAGES * PAGE) as u64).unwrap();
    second.resume(&sources, &Snapshot::from_files(snapshot.records(), snapshot.pages())).unwrap();
    let mut bytes = vec![0xee; PAGES * PAGE];
    second.memory().load_bytes(0, &mut bytes).unwrap();
    assert_eq!(bytes, image);
    let mut again = Snapshot::for_pages(PAGES as u64);
    second.make_snapshot(&mut again).unwrap();
    assert_eq!((again.records(), again.pages()), (snapshot.records(), snapshot.pages()));
}
