//! ckb-vm's sparse memory, W^X memory, snapshot and resume, over storage that is made once and never grows.
//!
//! A machine is stopped when its cycles are spent, and goes on elsewhere as if it had never been stopped:
//!
//! ```
//! use latchpebble::{FLAG_EXECUTABLE, FLAG_FREEZED, LoadingAction, Machine, Snapshot, Sources};
//!
//! # fn main() -> latchpebble::Result<()> {
//! // what both hosts have: item 1 is a program of a page, item 7 the readings
//! let (program, readings) = ([0x13; 4096], [0x5a; 10_000]);
//! let mut sources = Sources::new();
//! sources.add(1, &program);
//! sources.add(7, &readings);
//!
//! // version 1, 1,000 cycles at most, 16 pages
//! let mut first = Machine::new(1, 1_000, 16 * 4096)?;
//! let flags = FLAG_EXECUTABLE | FLAG_FREEZED;
//! first.memory_mut().init_pages(0x1000, 4096, flags, &program, 0)?;
//! let loaded = LoadingAction { addr: 0x1000, size: 4096, flags, source: 0..4096, offset_from_addr: 0 };
//! first.mark_program(&[loaded], 1, 0)?;
//! let (stored, full) = first.context_store_bytes(&sources, 0x3064, 7, 0, u64::MAX, 0xfff8)?;
//! assert_eq!((stored, full), (10_000, 10_000));
//! first.set_register(10, 0x3064)?;
//! first.update_pc(0x1000);
//! first.commit_pc();
//!
//! // it runs: here, one reading is corrected
//! let reading = first.memory().load64(0x3064)?;
//! first.memory_mut().store64(0x3064, reading - (reading >> 13))?;
//!
//! // stopped, between two instructions
//! let mut snapshot = Snapshot::for_pages(16);
//! first.make_snapshot(&mut snapshot)?;
//!
//! // and resumed on another host, from the two files
//! let files = Snapshot::from_files(snapshot.records(), snapshot.pages());
//! let mut second = Machine::new(1, 0, 16 * 4096)?;
//! second.resume(&sources, &files)?;
//! assert_eq!(second.memory().load64(0x3064)?, reading - (reading >> 13));
//! assert_eq!(second.memory().load64(0xfff8)?, 10_000);
//! assert_eq!(second.memory().fetch_flag(1)?, flags);
//! assert_eq!((second.pc(), second.max_cycles()), (0x1000, 1_000));
//!
//! // a refusal is a number with a meaning
//! let refused = second.memory_mut().store64(0x1000, 0).unwrap_err();
//! assert_eq!(refused.number(), 4);
//! # Ok(())
//! # }
//! ```
//!
//! # What is proved, and what is only this layer
//!
//! Each call of the archive `libhost.a` is proved, in the repository that this crate stands in, to do exactly what
//! document 01 says on every input: what it answers and what it leaves in all storage. Proved too is that a sound
//! machine (document 01 says when) with a slot for every page and no pc pending, resumed elsewhere, answers every later
//! call as the first would. docs/THEOREM.md there says it in plain words.
//!
//! This crate is Rust, and not proved. It owns storage, lends it to the archive's calls, keeps the numbers that they
//! hand back, and turns numbers into [`Error`]. Registers, pc, cycles and version are fields here, since to hand 300
//! bytes over and back for each would cost more than an instruction; tests hold them to the archive's functions. Unsafe
//! code is in one private module alone, which declares the archive's functions and passes slices to them.
//!
//! # Storage
//!
//! [`SparseMemory`], [`WXorXMemory`], [`Machine`] and [`Snapshot`] allocate at creation, and no call on them allocates
//! afterwards. [`Sources`] allocate while they are built. Module [`pair`] allocates, and so do the calls of ckb-vm's
//! traits that answer bytes by value (feature `upstream`).
//!
//! # Building
//!
//! The archive is built by `tools/calls --build port` in the repository, and looked for in its target/staticlib, or in
//! the directory $LATCHPEBBLE_ARCHIVE.

#[allow(dead_code, unsafe_code)]
mod archive;
mod error;
mod machine;
mod memory;
pub mod pair;
mod snapshot;
mod sources;
#[cfg(feature = "upstream")]
pub mod upstream;

pub use error::{Error, Result};
pub use machine::{LoadingAction, Machine, PageRecord, RISCV_GENERAL_REGISTER_NUMBER};
pub use memory::{
    FLAG_DIRTY, FLAG_EXECUTABLE, FLAG_FREEZED, FLAG_WRITABLE, FLAG_WXORX_BIT, RISCV_MAX_MEMORY, RISCV_PAGES,
    RISCV_PAGESIZE, SparseMemory, WXorXMemory, check_permission, fill_page_data, get_page_indices, round_page_down,
    round_page_up, set_dirty,
};
pub use snapshot::{FEWEST_RECORDS, MOST_RECORDS, RECORD_BYTES, Snapshot};
pub use sources::Sources;
