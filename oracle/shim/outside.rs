//! The crates that the upstream files lean on and that are not among them, in one library that is
//! given to the compiler under each of their names: ckb_vm_definitions, bytes, scroll, goblin_v023
//! and goblin_v040.

use std::borrow::Cow;

// ---- ckb_vm_definitions: the constants of document 01, "Constants of our build"

pub const RISCV_PAGE_SHIFTS: usize = 12;
pub const RISCV_PAGESIZE: usize = 4_096;
pub const RISCV_MAX_MEMORY: usize = 4_194_304;
pub const RISCV_GENERAL_REGISTER_NUMBER: usize = 32;
// handed on by memory/mod.rs and read by none of the files
pub const MEMORY_FRAME_PAGE_SHIFTS: usize = 6;
// read where instructions are run, which is not ported
pub const ISA_MOP: u8 = 2;

pub mod memory {
    pub const FLAG_FREEZED: u8 = 1;
    pub const FLAG_EXECUTABLE: u8 = 2;
    pub const FLAG_WXORX_BIT: u8 = 2;
    pub const FLAG_WRITABLE: u8 = 0;
    pub const FLAG_DIRTY: u8 = 4;
}

// read where a stack is set up, a system call is made or a machine is printed: not ported
pub mod registers {
    pub const SP: usize = 2;
    pub const A0: usize = 10;
    pub const A7: usize = 17;
    pub const REGISTER_ABI_NAMES: [&str; 32] = [""; 32];
}

// ---- bytes

#[derive(Clone, Debug, Default, PartialEq, Eq)]
pub struct Bytes(Cow<'static, [u8]>);

impl Bytes {
    pub fn new() -> Self {
        Bytes(Cow::Borrowed(&[]))
    }
    /// Copies nothing, as the crate's slices of one block don't.
    pub fn from_static(bytes: &'static [u8]) -> Self {
        Bytes(Cow::Borrowed(bytes))
    }
    pub fn slice(&self, range: std::ops::Range<usize>) -> Bytes {
        self.0[range].to_vec().into()
    }
}

impl From<Vec<u8>> for Bytes {
    fn from(v: Vec<u8>) -> Self {
        Bytes(Cow::Owned(v))
    }
}

impl From<Bytes> for Vec<u8> {
    fn from(b: Bytes) -> Self {
        b.0.into_owned()
    }
}

impl std::ops::Deref for Bytes {
    type Target = [u8];
    fn deref(&self) -> &[u8] {
        &self.0
    }
}

// ---- scroll and goblin: reading ELF files is not ported, so that these are names alone

#[derive(Debug)]
pub struct Unread;

pub trait Pread {
    fn pread<T>(&self, _: usize) -> Result<T, Unread> {
        Err(Unread)
    }
}

impl Pread for [u8] {}

pub mod container {
    pub struct Container;

    impl Container {
        pub fn is_big(&self) -> bool {
            true
        }
    }

    pub struct Endian;

    pub struct Ctx;

    impl Ctx {
        pub fn new(_: Container, _: Endian) -> Ctx {
            Ctx
        }
    }
}

pub mod elf {
    use super::Unread;
    use super::container::{Container, Endian};
    pub use program_header::ProgramHeader;
    pub use section_header::SectionHeader;

    pub struct Header {
        pub e_entry: u64,
        pub e_phoff: u64,
        pub e_phnum: u16,
    }

    impl Header {
        pub fn container(&self) -> Result<Container, Unread> {
            Err(Unread)
        }
        pub fn endianness(&self) -> Result<Endian, Unread> {
            Err(Unread)
        }
    }

    pub mod program_header {
        use super::super::{Unread, container::Ctx};

        pub const PF_X: u32 = 1;
        pub const PF_W: u32 = 2;
        pub const PF_R: u32 = 4;
        pub const PT_LOAD: u32 = 1;

        pub struct ProgramHeader {
            pub p_type: u32,
            pub p_flags: u32,
            pub p_offset: u64,
            pub p_vaddr: u64,
            pub p_paddr: u64,
            pub p_filesz: u64,
            pub p_memsz: u64,
            pub p_align: u64,
        }

        impl ProgramHeader {
            pub fn parse(_: &[u8], _: usize, _: usize, _: Ctx) -> Result<Vec<Self>, Unread> {
                Err(Unread)
            }
        }
    }

    pub mod section_header {
        pub const SHF_EXECINSTR: u32 = 4;

        pub struct SectionHeader {
            pub sh_name: usize,
            pub sh_type: u32,
            pub sh_flags: u64,
            pub sh_addr: u64,
            pub sh_offset: u64,
            pub sh_size: u64,
            pub sh_link: u32,
            pub sh_info: u32,
            pub sh_addralign: u64,
            pub sh_entsize: u64,
        }
    }
}
