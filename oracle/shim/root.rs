//! The crate root that the upstream files are modules of: what they name, and no more.
//! Written for the oracle; nothing here is ported.
#![allow(unexpected_cfgs)]

pub mod bits;
pub mod elf;
pub mod machine;
pub mod memory;
pub mod snapshot2;

pub use bytes::Bytes;
pub use ckb_vm_definitions::{
    ISA_MOP, RISCV_GENERAL_REGISTER_NUMBER, RISCV_MAX_MEMORY, RISCV_PAGE_SHIFTS, RISCV_PAGESIZE,
    registers,
};
pub use instructions::Register;

#[derive(Debug)]
pub enum Error {
    // the six that ported calls give: numbers 1 to 6 of document 01
    InvalidVersion,
    MemOutOfBound,
    MemPageUnalignedAccess,
    MemWriteOnExecutablePage,
    MemWriteOnFreezedPage,
    SnapshotDataLoadError,
    // named by the files in what is not ported
    CyclesExceeded,
    CyclesOverflow,
    ElfBits,
    ElfParse,
    ElfSegmentAddrOrSizeError,
    ElfSegmentUnreadable,
    ElfSegmentWritableAndExecutable,
    InvalidEcall(u64),
    MemOutOfStack,
    Pause,
    Unexpected(String),
}

impl From<scroll::Unread> for Error {
    fn from(_: scroll::Unread) -> Self {
        Error::ElfParse
    }
}

pub mod instructions {
    use super::{Error, machine::Machine};

    pub type Instruction = u64;

    pub fn execute<M: Machine>(_: Instruction, _: &mut M) -> Result<(), Error> {
        unimplemented!("running instructions is not ported")
    }

    pub trait Register: Clone + Default {
        const BITS: u8;
        fn zero() -> Self;
        fn overflowing_add(&self, other: &Self) -> Self;
        fn overflowing_sub(&self, other: &Self) -> Self;
        fn ge(&self, other: &Self) -> Self;
        fn from_u8(v: u8) -> Self;
        fn from_u16(v: u16) -> Self;
        fn from_u32(v: u32) -> Self;
        fn from_u64(v: u64) -> Self;
        fn to_i8(&self) -> i8;
        fn to_u8(&self) -> u8;
        fn to_u16(&self) -> u16;
        fn to_u32(&self) -> u32;
        fn to_u64(&self) -> u64;
    }

    impl Register for u64 {
        const BITS: u8 = 64;

        fn zero() -> u64 {
            0
        }
        fn overflowing_add(&self, other: &u64) -> u64 {
            self.wrapping_add(*other)
        }
        fn overflowing_sub(&self, other: &u64) -> u64 {
            self.wrapping_sub(*other)
        }
        fn ge(&self, other: &u64) -> u64 {
            u64::from(self >= other)
        }
        fn from_u8(v: u8) -> u64 {
            u64::from(v)
        }
        fn from_u16(v: u16) -> u64 {
            u64::from(v)
        }
        fn from_u32(v: u32) -> u64 {
            u64::from(v)
        }
        fn from_u64(v: u64) -> u64 {
            v
        }
        // the low bits, as the crate's own Register for u64
        fn to_i8(&self) -> i8 {
            *self as i8
        }
        fn to_u8(&self) -> u8 {
            *self as u8
        }
        fn to_u16(&self) -> u16 {
            *self as u16
        }
        fn to_u32(&self) -> u32 {
            *self as u32
        }
        fn to_u64(&self) -> u64 {
            *self
        }
    }
}

pub mod decoder {
    use super::{Error, memory::Memory};

    pub struct Decoder;

    impl Decoder {
        pub fn decode<M: Memory>(&mut self, _: &mut M, _: u64) -> Result<u64, Error> {
            unimplemented!("running instructions is not ported")
        }
        pub fn reset_instructions_cache(&mut self) {}
    }

    pub fn build_decoder<R>(_: u8, _: u32) -> Decoder {
        Decoder
    }
}

pub mod debugger {
    use super::Error;

    pub trait Debugger<M> {
        fn initialize(&mut self, machine: &mut M) -> Result<(), Error>;
        fn ebreak(&mut self, machine: &mut M) -> Result<(), Error>;
    }
}

pub mod syscalls {
    use super::Error;

    pub trait Syscalls<M> {
        fn initialize(&mut self, machine: &mut M) -> Result<(), Error>;
        fn ecall(&mut self, machine: &mut M) -> Result<bool, Error>;
    }
}
