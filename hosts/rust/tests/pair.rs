//! A pair on disk: written, read, and every wrong one refused.

use latchpebble::{MOST_RECORDS, RECORD_BYTES, RISCV_MAX_MEMORY, Snapshot, pair};
use std::fs;
use std::io::ErrorKind;
use std::os::unix::fs::symlink;
use std::path::{Path, PathBuf};
use std::sync::atomic::{AtomicBool, Ordering};

/// The pairs that each of two writers writes beside a reader.
const WRITES: u8 = 40;

/// A directory of a test's own, removed at its end.
struct Place(PathBuf);

impl Place {
    fn new(name: &str) -> Place {
        let path = std::env::temp_dir().join(format!("latchpebble-{}-{name}", std::process::id()));
        fs::create_dir(&path).unwrap();
        Place(path)
    }

    fn pair(&self) -> PathBuf {
        self.0.join("pair")
    }
}

impl Drop for Place {
    fn drop(&mut self) {
        fs::remove_dir_all(&self.0).unwrap();
    }
}

/// Two files that tell which pair they are of.
fn numbered(number: u8) -> Snapshot {
    Snapshot::from_files(vec![number; 480], vec![number; 8_192])
}

fn read(directory: &Path) -> (Vec<u8>, Vec<u8>) {
    let snapshot = pair::read(directory).unwrap();
    (snapshot.records().to_vec(), snapshot.pages().to_vec())
}

fn whole(number: u8) -> (Vec<u8>, Vec<u8>) {
    (vec![number; 480], vec![number; 8_192])
}

/// The names in a directory, links with where they lead.
fn names(directory: &Path) -> Vec<String> {
    let mut names: Vec<String> = fs::read_dir(directory)
        .unwrap()
        .map(|entry| {
            let entry = entry.unwrap();
            let name = entry.file_name().into_string().unwrap();
            fs::read_link(entry.path()).map_or(name.clone(), |to| format!("{name} -> {}", to.display()))
        })
        .collect();
    names.sort();
    names
}

fn refused<T>(result: std::io::Result<T>, text: &str) {
    let error = result.err().expect("it is refused").to_string();
    assert!(error.contains(text), "{error}");
}

#[test]
fn written_and_read() {
    let place = Place::new("written");
    for number in 1..=11 {
        pair::write(&place.pair(), &numbered(number)).unwrap();
        assert_eq!(read(&place.pair()), whole(number));
        assert_eq!(names(&place.pair()), [format!("current -> pair.{number}"), format!("pair.{number}")]);
        let files = place.pair().join(format!("pair.{number}"));
        assert_eq!(names(&files), ["pages", "records"]);
        assert_eq!(fs::read(files.join("records")).unwrap(), whole(number).0);
        assert_eq!(fs::read(files.join("pages")).unwrap(), whole(number).1);
    }
    // empty files are files
    pair::write(&place.pair(), &Snapshot::from_files([], [])).unwrap();
    assert_eq!(read(&place.pair()), (vec![], vec![]));
    // what is written of a buffer, not all of it
    pair::write(&place.pair(), &Snapshot::for_pages(4)).unwrap();
    assert_eq!(read(&place.pair()), (vec![], vec![]));
}

#[test]
fn what_a_killed_writer_left() {
    let place = Place::new("killed");
    let pair = place.pair();
    // before the first pair
    fs::create_dir_all(pair.join("pair.1")).unwrap();
    fs::write(pair.join("pair.1/records"), "half").unwrap();
    refused(pair::read(&pair), "no pair");
    pair::write(&pair, &numbered(1)).unwrap();
    assert_eq!((read(&pair), names(&pair)), (whole(1), vec!["current -> pair.1".into(), "pair.1".into()]));
    // before the rename, and after it
    fs::create_dir(pair.join("pair.2")).unwrap();
    fs::write(pair.join("pair.2/records"), "half").unwrap();
    symlink("pair.2", pair.join("current.new")).unwrap();
    fs::create_dir(pair.join("pair.0")).unwrap();
    fs::write(pair.join("pair.x"), "a file").unwrap();
    fs::write(pair.join("notes"), "of another").unwrap();
    assert_eq!(read(&pair), whole(1));
    pair::write(&pair, &numbered(2)).unwrap();
    assert_eq!(read(&pair), whole(2));
    assert_eq!(names(&pair), ["current -> pair.2", "notes", "pair.2"]);
}

#[test]
fn a_link_is_not_followed_out() {
    let place = Place::new("outward");
    let other = place.0.join("other");
    fs::create_dir(&other).unwrap();
    fs::write(other.join("kept"), "").unwrap();
    pair::write(&place.pair(), &numbered(1)).unwrap();
    symlink(&other, place.pair().join("pair.9")).unwrap();
    pair::write(&place.pair(), &numbered(2)).unwrap();
    assert_eq!(names(&place.pair()), ["current -> pair.2", "pair.2"]);
    assert_eq!(names(&other), ["kept"]);
}

#[test]
fn wrong_directories() {
    let place = Place::new("wrong");
    let pair = place.pair();
    assert_eq!(pair::read(&pair).unwrap_err().kind(), ErrorKind::NotFound);
    assert_eq!(pair::write(&pair.join("below"), &numbered(1)).unwrap_err().kind(), ErrorKind::NotFound);
    fs::write(&pair, "a file").unwrap();
    assert_eq!(pair::read(&pair).unwrap_err().kind(), ErrorKind::NotADirectory);
    assert_eq!(pair::write(&pair, &numbered(1)).unwrap_err().kind(), ErrorKind::NotADirectory);
    fs::remove_file(&pair).unwrap();
    fs::create_dir(&pair).unwrap();
    refused(pair::read(&pair), "no pair");
}

#[test]
fn wrong_links() {
    let place = Place::new("links");
    let pair = place.pair();
    pair::write(&pair, &numbered(1)).unwrap();
    let current = pair.join("current");
    for target in ["pair.", "pair.0", "pair.01", "pair.+1", "pair.1/", "./pair.1", "pair.x", "..", "pair.1/../pair.1"] {
        fs::remove_file(&current).unwrap();
        symlink(target, &current).unwrap();
        refused(pair::read(&pair), "no link to a pair");
        refused(pair::write(&pair, &numbered(2)), "no link to a pair");
        assert_eq!(names(&pair), [format!("current -> {target}"), "pair.1".into()]);
    }
    // no link at all
    fs::remove_file(&current).unwrap();
    fs::write(&current, "pair.1").unwrap();
    assert!(pair::read(&pair).is_err() && pair::write(&pair, &numbered(2)).is_err());
    // the last number there is
    fs::remove_file(&current).unwrap();
    symlink(format!("pair.{}", u64::MAX), &current).unwrap();
    refused(pair::write(&pair, &numbered(2)), "no number is left");
    // a link that leads nowhere
    fs::remove_file(&current).unwrap();
    symlink("pair.5", &current).unwrap();
    assert_eq!(pair::read(&pair).unwrap_err().kind(), ErrorKind::NotFound);
}

#[test]
fn wrong_files() {
    let place = Place::new("files");
    let pair = place.pair();
    let most = [MOST_RECORDS * RECORD_BYTES, RISCV_MAX_MEMORY].map(|bytes| vec![0; bytes as usize]);
    pair::write(&pair, &Snapshot::from_files(&most[0][..], &most[1][..])).unwrap();
    assert_eq!(read(&pair), most.clone().into());
    let longer = most.clone().map(|bytes| [&bytes[..], &[0]].concat());
    refused(pair::write(&pair, &Snapshot::from_files(&longer[0][..], [])), "longer than 49584 bytes");
    refused(pair::write(&pair, &Snapshot::from_files([], &longer[1][..])), "longer than 4194304 bytes");
    assert_eq!(names(&pair), ["current -> pair.1", "pair.1"]);
    for (name, most) in ["records", "pages"].into_iter().zip(&most) {
        let file = pair.join("current").join(name);
        fs::write(&file, vec![0; most.len() + 1]).unwrap();
        refused(pair::read(&pair), &format!("longer than {} bytes", most.len()));
        fs::remove_file(&file).unwrap();
        assert_eq!(pair::read(&pair).unwrap_err().kind(), ErrorKind::NotFound);
        fs::create_dir(&file).unwrap();
        assert_eq!(pair::read(&pair).unwrap_err().kind(), ErrorKind::IsADirectory);
        fs::remove_dir(&file).unwrap();
        fs::write(&file, most).unwrap();
        assert!(pair::read(&pair).is_ok());
    }
}

#[test]
fn readers_beside_writers() {
    let place = Place::new("beside");
    let pair = &place.pair();
    pair::write(pair, &numbered(0)).unwrap();
    let done = &AtomicBool::new(false);
    let seen = std::thread::scope(|scope| {
        let reader = scope.spawn(move || {
            let mut seen = [false; 256];
            while !done.load(Ordering::Relaxed) {
                let (records, pages) = read(pair);
                assert_eq!((records.clone(), pages), whole(records[0]));
                seen[records[0] as usize] = true;
            }
            seen.iter().filter(|seen| **seen).count()
        });
        let writers: Vec<_> = (0..2)
            .map(|writer| {
                scope.spawn(move || {
                    for number in 0..WRITES {
                        pair::write(pair, &numbered(2 * number + writer)).unwrap();
                    }
                })
            })
            .collect();
        let ended: Vec<_> = writers.into_iter().map(|writer| writer.join()).collect();
        // also where one failed: the reader must end
        done.store(true, Ordering::Relaxed);
        ended.into_iter().for_each(|writer| writer.unwrap());
        reader.join().unwrap()
    });
    assert!(seen > 1, "the reader met {seen} pairs");
    let last = 1 + 2 * u32::from(WRITES);
    assert_eq!(names(pair), [format!("current -> pair.{last}"), format!("pair.{last}")]);
}

/// A reader waits for a writer and a writer for a reader; readers do not wait for each other.
#[test]
fn locks() {
    let place = Place::new("locks");
    let pair = &place.pair();
    pair::write(pair, &numbered(1)).unwrap();
    let holder = fs::File::open(pair).unwrap();
    let waits = |work: fn(&Path)| {
        std::thread::scope(|scope| {
            let other = scope.spawn(move || work(pair));
            std::thread::sleep(std::time::Duration::from_millis(200));
            let waited = !other.is_finished();
            holder.unlock().unwrap();
            other.join().unwrap();
            waited
        })
    };
    let reads = |pair: &Path| assert_eq!(read(pair), whole(1));
    let writes = |pair: &Path| pair::write(pair, &numbered(1)).unwrap();
    holder.lock().unwrap();
    assert!(waits(reads));
    holder.lock_shared().unwrap();
    assert!(!waits(reads));
    holder.lock_shared().unwrap();
    assert!(waits(writes));
}
