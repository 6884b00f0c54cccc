use crate::archive::{Files, Made};
use crate::error::{Result, answer};
use crate::memory::{RISCV_PAGES, RISCV_PAGESIZE};
use std::fmt;

/// The bytes of a record in the record file.
pub const RECORD_BYTES: u64 = 48;
/// The records that every record file has: the state and the registers. Each run of pages has one more.
pub const FEWEST_RECORDS: u64 = 9;
/// The most records that a record file can have.
pub const MOST_RECORDS: u64 = FEWEST_RECORDS + RISCV_PAGES;

/// A snapshot's two files: the record file, and the page file with the dirty pages.
///
/// They are held in buffers that are made at creation and never grow.
#[derive(Clone)]
pub struct Snapshot {
    records: File,
    pages: File,
}

/// A buffer, and how much of it is written.
#[derive(Clone)]
struct File {
    buffer: Box<[u8]>,
    written: usize,
}

impl File {
    fn empty(length: u64) -> File {
        File { buffer: vec![0; length as usize].into(), written: 0 }
    }

    fn whole(buffer: Box<[u8]>) -> File {
        File { written: buffer.len(), buffer }
    }

    fn now(&self) -> &[u8] {
        &self.buffer[..self.written]
    }
}

impl Snapshot {
    /// Buffers that are long enough for every snapshot of a machine of so many pages, with no snapshot in them yet.
    ///
    /// No machine has more than [`RISCV_PAGES`], so no more than for these is made.
    pub fn for_pages(pages: u64) -> Snapshot {
        let pages = pages.min(RISCV_PAGES);
        Snapshot {
            records: File::empty((FEWEST_RECORDS + pages) * RECORD_BYTES),
            pages: File::empty(pages * RISCV_PAGESIZE),
        }
    }

    /// From the bytes of the two files. Whether they are in the form is for
    /// [`Machine::resume`](crate::Machine::resume) to say.
    pub fn from_files(records: impl Into<Box<[u8]>>, pages: impl Into<Box<[u8]>>) -> Snapshot {
        Snapshot { records: File::whole(records.into()), pages: File::whole(pages.into()) }
    }

    /// What is written of the record file.
    pub fn records(&self) -> &[u8] {
        self.records.now()
    }

    /// What is written of the page file.
    pub fn pages(&self) -> &[u8] {
        self.pages.now()
    }

    pub(crate) fn lent(&self) -> Files<'_> {
        Files { records: self.records(), pages: self.pages() }
    }

    /// Has the call make both files in the buffers. Where it refuses, what was written before is still there.
    pub(crate) fn make(&mut self, call: impl FnOnce(&mut [u8], &mut [u8]) -> Made) -> Result<()> {
        let Made { number, records, pages } = call(&mut self.records.buffer, &mut self.pages.buffer);
        answer(number)?;
        self.records.written = (records * RECORD_BYTES) as usize;
        self.pages.written = (pages * RISCV_PAGESIZE) as usize;
        Ok(())
    }
}

impl fmt::Debug for Snapshot {
    fn fmt(&self, f: &mut fmt::Formatter) -> fmt::Result {
        f.debug_struct("Snapshot")
            .field("records", &format_args!("{} bytes", self.records().len()))
            .field("pages", &format_args!("{} bytes", self.pages().len()))
            .finish()
    }
}
