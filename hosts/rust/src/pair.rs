//! A snapshot's two files on disk, as one pair: written whole or not at all.
//!
//! PAIR is a directory. In it `current` is a symbolic link to a directory `pair.N` beside it (N decimal, 1 and up),
//! which holds the files `records` and `pages`. A new pair is written into a directory of its own, and the rename of a
//! new link over `current` makes it the pair.
//!
//! What is promised: a writer that is killed at any moment leaves the old pair or the new one whole, or, before the
//! first pair, none; the next writer removes what it left. Files and directories are fsynced before the rename, and
//! PAIR after it, so that the same holds when the power is cut, and a pair whose [`write`](fn@write) answered is kept. One writer
//! at a time, and no reader beside it: each locks PAIR, and a killed process lets go of its lock.
//!
//! What it needs: a local file system with the rename of POSIX, fsync that does what it says, and flock. What is not
//! promised: anything while another program changes PAIR, renames it or puts another directory in its place; and more
//! than one pair: the old one is removed.

use crate::memory::RISCV_MAX_MEMORY;
use crate::snapshot::{MOST_RECORDS, RECORD_BYTES, Snapshot};
use std::ffi::OsString;
use std::fmt::Display;
use std::fs::{self, File};
use std::io::{self, Error, ErrorKind, Read, Write};
use std::os::unix::ffi::OsStrExt;
use std::os::unix::fs::symlink;
use std::path::{Path, PathBuf};

const CURRENT: &str = "current";
const NEW_LINK: &str = "current.new";
/// What the name of a pair's directory begins with.
const PAIR: &str = "pair.";
const RECORDS: &str = "records";
const PAGES: &str = "pages";
/// No snapshot has longer files.
const MOST_RECORD_BYTES: u64 = MOST_RECORDS * RECORD_BYTES;
const MOST_PAGE_BYTES: u64 = RISCV_MAX_MEMORY;

/// Writes both files as the next pair; the directory is made where it is missing, its parent not.
///
/// An error, too, leaves the old pair or the new one whole. Where it came after the rename the pair is the new one, and
/// may not be kept when the power is cut.
pub fn write(directory: &Path, snapshot: &Snapshot) -> io::Result<()> {
    within(directory, snapshot.records(), MOST_RECORD_BYTES)?;
    within(directory, snapshot.pages(), MOST_PAGE_BYTES)?;
    match fs::create_dir(directory) {
        Err(error) if error.kind() == ErrorKind::AlreadyExists => {}
        made => told(directory, made)?,
    }
    let pair = Locked::open(directory, File::lock)?;
    let old = pair.current()?;
    let Some(number) = old.unwrap_or(0).checked_add(1) else {
        return refused(&pair.at(CURRENT), "no number is left for a new pair");
    };
    if old.is_none() {
        // the directory may be new, made here or by a writer that was killed
        sync(&pair.at(".."))?;
    }
    pair.sweep(old)?;
    let new = pair.numbered(number);
    told(&new, fs::create_dir(&new))?;
    write_file(&new.join(RECORDS), snapshot.records())?;
    write_file(&new.join(PAGES), snapshot.pages())?;
    sync(&new)?;
    let link = pair.at(NEW_LINK);
    told(&link, symlink(name_of(number), &link))?;
    pair.sync()?;
    told(&link, fs::rename(&link, pair.at(CURRENT)))?;
    pair.sync()?;
    old.map_or(Ok(()), |old| remove(&pair.numbered(old)))
}

/// Reads the pair. Whether the files are in the form is for [`Machine::resume`](crate::Machine::resume) to say; only
/// ones longer than any snapshot has are refused, here and by [`write`](fn@write).
pub fn read(directory: &Path) -> io::Result<Snapshot> {
    let pair = Locked::open(directory, File::lock_shared)?;
    let Some(number) = pair.current()? else { return refused(&pair.at(CURRENT), "no pair is there") };
    let current = pair.numbered(number);
    let records = read_file(&current.join(RECORDS), MOST_RECORD_BYTES)?;
    let pages = read_file(&current.join(PAGES), MOST_PAGE_BYTES)?;
    Ok(Snapshot::from_files(records, pages))
}

/// The directory of a pair, locked for as long as this is held.
struct Locked<'a> {
    path: &'a Path,
    open: File,
}

impl Locked<'_> {
    fn open(path: &Path, lock: fn(&File) -> io::Result<()>) -> io::Result<Locked<'_>> {
        let open = told(path, File::open(path))?;
        told(path, lock(&open))?;
        Ok(Locked { path, open })
    }

    fn at(&self, name: &str) -> PathBuf {
        self.path.join(name)
    }

    fn numbered(&self, number: u64) -> PathBuf {
        self.at(&name_of(number))
    }

    fn sync(&self) -> io::Result<()> {
        told(self.path, self.open.sync_all())
    }

    /// The number of the current pair; none where there is no link.
    fn current(&self) -> io::Result<Option<u64>> {
        let link = self.at(CURRENT);
        let target = match fs::read_link(&link) {
            Err(error) if error.kind() == ErrorKind::NotFound => return Ok(None),
            target => told(&link, target)?,
        };
        match target.to_str().and_then(number_of) {
            Some(number) => Ok(Some(number)),
            None => refused(&link, "no link to a pair"),
        }
    }

    /// Removes what a killed writer left: a new link, and every pair but the current one.
    fn sweep(&self, current: Option<u64>) -> io::Result<()> {
        let kept = current.map(name_of).unwrap_or_default();
        // all names first: a directory that is changed while it is read may not show all
        let entries = told(self.path, fs::read_dir(self.path))?;
        let names = entries.map(|entry| entry.map(|entry| entry.file_name())).collect::<io::Result<Vec<OsString>>>();
        for name in told(self.path, names)? {
            let of_a_pair = name.as_bytes().starts_with(PAIR.as_bytes());
            if name == NEW_LINK || of_a_pair && name != *kept {
                remove(&self.path.join(name))?;
            }
        }
        Ok(())
    }
}

fn name_of(number: u64) -> String {
    format!("{PAIR}{number}")
}

/// The number in a pair's name, which is written in one way only.
fn number_of(name: &str) -> Option<u64> {
    let number = name.strip_prefix(PAIR)?.parse().ok()?;
    (number > 0 && name == name_of(number)).then_some(number)
}

fn write_file(path: &Path, bytes: &[u8]) -> io::Result<()> {
    let mut file = told(path, File::create_new(path))?;
    told(path, file.write_all(bytes))?;
    told(path, file.sync_all())
}

/// All of a file of at most so many bytes.
fn read_file(path: &Path, most: u64) -> io::Result<Vec<u8>> {
    let mut bytes = vec![];
    let file = told(path, File::open(path))?;
    told(path, file.take(most + 1).read_to_end(&mut bytes))?;
    within(path, &bytes, most)?;
    Ok(bytes)
}

fn within(path: &Path, bytes: &[u8], most: u64) -> io::Result<()> {
    if bytes.len() as u64 > most { refused(path, format_args!("a file longer than {most} bytes")) } else { Ok(()) }
}

fn sync(directory: &Path) -> io::Result<()> {
    told(directory, File::open(directory).and_then(|open| open.sync_all()))
}

/// Removes a file, a link or a directory.
fn remove(path: &Path) -> io::Result<()> {
    let there = told(path, fs::symlink_metadata(path))?;
    told(path, if there.is_dir() { fs::remove_dir_all(path) } else { fs::remove_file(path) })
}

/// An error with the path that it is about.
fn told<T>(path: &Path, result: io::Result<T>) -> io::Result<T> {
    result.map_err(|error| Error::new(error.kind(), format!("{}: {error}", path.display())))
}

fn refused<T>(path: &Path, why: impl Display) -> io::Result<T> {
    Err(Error::new(ErrorKind::InvalidData, format!("{}: {why}", path.display())))
}
