//! The traits of crate ckb-vm 0.24.15, for the memories, the machine and the sources of this crate (feature `upstream`).
//!
//! [`SparseMemory`] and [`WXorXMemory`] are a `ckb_vm::memory::Memory`, [`Machine`] is a `ckb_vm::machine::CoreMachine`
//! and `SupportMachine`, [`Sources`] are a `ckb_vm::snapshot2::DataSource<u64>`. So a runner written over ckb-vm takes
//! this crate's machine in the place of `DefaultCoreMachine<u64, WXorXMemory<SparseMemory<u64>>>`.
//!
//! # Where ckb-vm comes from
//!
//! This crate has no dependency, and cargo works offline. There are two ways to give it ckb-vm:
//!
//! - a runner that takes ckb-vm from the registry adds the line `ckb-vm = "=0.24.15"` to the `[dependencies]` of this
//!   crate's Cargo.toml;
//! - else the compiler is told: `RUSTFLAGS="--extern ckb_vm=DIR/libckb_vm.rlib -L DIR"`, and RUSTDOCFLAGS the same. The
//!   repository's tools/upstream does so with the upstream files alone, compiled unchanged between a shim, and runs the
//!   tests that hold both to each other.
//!
//! # What differs
//!
//! - Calls answer as the upstream's on all inputs on which those neither panic nor overflow a sum. On the others they
//!   answer one of document 01's numbers. Loads take no slot.
//! - As the upstream's, `new_with_memory` panics on a size that is not whole pages or above the maximum, and
//!   `set_register` on number 32 or more. Each has a call of this crate that answers an [`Error`](crate::Error) in its
//!   place.
//! - `load_bytes` and `DataSource::load_data` allocate what they answer, since `Bytes` are handed out by value.
//! - `reset` keeps the storage. As `DefaultCoreMachine`'s it leaves the pending pc, version and isa as they are; it also
//!   drops the records of this crate's own tracking. What a `Snapshot2Context` of ckb-vm tracks is its own affair.
//! - [`Machine::track_pages`] and its companions keep their records in the machine, ckb-vm's in a `Snapshot2Context`.
//!   Use one of the two for a machine: neither knows what the other tracks.

use crate::{Machine, RISCV_MAX_MEMORY, Sources, SparseMemory, WXorXMemory};
use ckb_vm::machine::{CoreMachine, SupportMachine};
use ckb_vm::memory::Memory;
use ckb_vm::snapshot2::DataSource;
use ckb_vm::{Bytes, Error};

/// The first six refusals are errors of ckb-vm; the others are `Unexpected`, with number and meaning.
///
/// Through ckb-vm's traits these are met only so: 7 on a memory or machine with fewer slots than pages, which only
/// `with_slots` makes; 8 never, since outputs are made as long as they must be; 9 never, since the storage is this
/// crate's own (a bad size panics); 10 never (a bad register number panics); 11 never, since record files are no matter
/// of ckb-vm.
impl From<crate::Error> for Error {
    fn from(error: crate::Error) -> Error {
        match error {
            crate::Error::InvalidVersion => Error::InvalidVersion,
            crate::Error::MemOutOfBound => Error::MemOutOfBound,
            crate::Error::MemPageUnalignedAccess => Error::MemPageUnalignedAccess,
            crate::Error::MemWriteOnExecutablePage => Error::MemWriteOnExecutablePage,
            crate::Error::MemWriteOnFreezedPage => Error::MemWriteOnFreezedPage,
            crate::Error::SnapshotDataLoadError => Error::SnapshotDataLoadError,
            crate::Error::AllSlotsInUse
            | crate::Error::OutputTooShort
            | crate::Error::BadStorage
            | crate::Error::NoSuchRegister
            | crate::Error::BadRecordFile => Error::Unexpected(error.to_string()),
        }
    }
}

/// What a refused call can't answer in ckb-vm's trait: it panics there, too.
fn done<T>(what: &str, answer: crate::Result<T>) -> T {
    answer.unwrap_or_else(|refusal| panic!("{what}: {refusal}"))
}

/// A call by its full name is this crate's own: by method syntax it could be the trait's again.
macro_rules! memory {
    ($memory:ty) => {
        impl Memory for $memory {
            type REG = u64;

            fn new() -> Self {
                Self::new_with_memory(RISCV_MAX_MEMORY as usize)
            }

            fn new_with_memory(memory_size: usize) -> Self {
                done("new_with_memory", <$memory>::new(memory_size as u64))
            }

            fn init_pages(
                &mut self,
                addr: u64,
                size: u64,
                flags: u8,
                source: Option<Bytes>,
                offset_from_addr: u64,
            ) -> Result<(), Error> {
                let source = source.as_deref().unwrap_or_default();
                Ok(<$memory>::init_pages(self, addr, size, flags, source, offset_from_addr)?)
            }

            fn fetch_flag(&mut self, page: u64) -> Result<u8, Error> {
                Ok(<$memory>::fetch_flag(self, page)?)
            }

            fn set_flag(&mut self, page: u64, flag: u8) -> Result<(), Error> {
                Ok(<$memory>::set_flag(self, page, flag)?)
            }

            fn clear_flag(&mut self, page: u64, flag: u8) -> Result<(), Error> {
                Ok(<$memory>::clear_flag(self, page, flag)?)
            }

            fn memory_size(&self) -> usize {
                <$memory>::memory_size(self) as usize
            }

            fn memory_pages(&self) -> usize {
                <$memory>::memory_pages(self) as usize
            }

            fn store_byte(&mut self, addr: u64, size: u64, value: u8) -> Result<(), Error> {
                Ok(<$memory>::store_byte(self, addr, size, value)?)
            }

            fn store_bytes(&mut self, addr: u64, value: &[u8]) -> Result<(), Error> {
                Ok(<$memory>::store_bytes(self, addr, value)?)
            }

            fn load_bytes(&mut self, addr: u64, size: u64) -> Result<Bytes, Error> {
                // more than the memory has is refused whatever the output's length
                let length = size.min(<$memory>::memory_size(self));
                let mut out = vec![0; length as usize];
                self.load_bytes_into(addr, size, &mut out)?;
                Ok(out.into())
            }

            fn execute_load16(&mut self, addr: u64) -> Result<u16, Error> {
                Ok(<$memory>::execute_load16(self, addr)?)
            }

            fn execute_load32(&mut self, addr: u64) -> Result<u32, Error> {
                Ok(<$memory>::execute_load32(self, addr)?)
            }

            fn load8(&mut self, addr: &u64) -> Result<u64, Error> {
                Ok(<$memory>::load8(self, *addr)?)
            }

            fn load16(&mut self, addr: &u64) -> Result<u64, Error> {
                Ok(<$memory>::load16(self, *addr)?)
            }

            fn load32(&mut self, addr: &u64) -> Result<u64, Error> {
                Ok(<$memory>::load32(self, *addr)?)
            }

            fn load64(&mut self, addr: &u64) -> Result<u64, Error> {
                Ok(<$memory>::load64(self, *addr)?)
            }

            fn store8(&mut self, addr: &u64, value: &u64) -> Result<(), Error> {
                Ok(<$memory>::store8(self, *addr, *value)?)
            }

            fn store16(&mut self, addr: &u64, value: &u64) -> Result<(), Error> {
                Ok(<$memory>::store16(self, *addr, *value)?)
            }

            fn store32(&mut self, addr: &u64, value: &u64) -> Result<(), Error> {
                Ok(<$memory>::store32(self, *addr, *value)?)
            }

            fn store64(&mut self, addr: &u64, value: &u64) -> Result<(), Error> {
                Ok(<$memory>::store64(self, *addr, *value)?)
            }

            fn lr(&self) -> &u64 {
                self.reservation()
            }

            fn set_lr(&mut self, value: &u64) {
                <$memory>::set_lr(self, *value);
            }
        }
    };
}

memory!(SparseMemory);
memory!(WXorXMemory);

/// What a `SupportMachine` keeps and the archive has not.
#[derive(Clone, Default)]
pub(crate) struct State {
    isa: u8,
    running: bool,
    reset_signal: bool,
}

impl CoreMachine for Machine {
    type REG = u64;
    type MEM = WXorXMemory;

    fn pc(&self) -> &u64 {
        &self.pc
    }

    fn update_pc(&mut self, pc: u64) {
        Machine::update_pc(self, pc);
    }

    fn commit_pc(&mut self) {
        Machine::commit_pc(self);
    }

    fn memory(&self) -> &WXorXMemory {
        Machine::memory(self)
    }

    fn memory_mut(&mut self) -> &mut WXorXMemory {
        Machine::memory_mut(self)
    }

    fn registers(&self) -> &[u64] {
        &self.registers
    }

    fn set_register(&mut self, idx: usize, value: u64) {
        done("set_register", Machine::set_register(self, idx, value));
    }

    fn version(&self) -> u32 {
        Machine::version(self)
    }

    fn isa(&self) -> u8 {
        self.upstream.isa
    }
}

impl SupportMachine for Machine {
    fn new_with_memory(isa: u8, version: u32, max_cycles: u64, memory_size: usize) -> Machine {
        let mut machine = done("new_with_memory", Machine::new(version, max_cycles, memory_size as u64));
        machine.upstream.isa = isa;
        machine
    }

    fn cycles(&self) -> u64 {
        Machine::cycles(self)
    }

    fn set_cycles(&mut self, cycles: u64) {
        Machine::set_cycles(self, cycles);
    }

    fn max_cycles(&self) -> u64 {
        Machine::max_cycles(self)
    }

    fn set_max_cycles(&mut self, max_cycles: u64) {
        Machine::set_max_cycles(self, max_cycles);
    }

    fn running(&self) -> bool {
        self.upstream.running
    }

    fn set_running(&mut self, running: bool) {
        self.upstream.running = running;
    }

    fn reset(&mut self, max_cycles: u64) {
        let pending = self.next_pc;
        done("reset", self.fresh(Machine::version(self), max_cycles));
        self.next_pc = pending;
        self.upstream.reset_signal = true;
    }

    fn reset_signal(&mut self) -> bool {
        std::mem::take(&mut self.upstream.reset_signal)
    }
}

impl DataSource<u64> for Sources {
    fn load_data(&self, id: &u64, offset: u64, length: u64) -> Option<(Bytes, u64)> {
        let (data, full) = Sources::load_data(self, *id, offset, length).ok()?;
        Some((data.to_vec().into(), full))
    }
}
