use crate::archive::{self, Calls, Fresh, Indices, Lent, SPARSE, Seen, Stored, Value, WXORX, seen};
use crate::error::{Result, answer};
use std::fmt;

/// The bytes of a page.
pub const RISCV_PAGESIZE: u64 = 4_096;
/// The most bytes that a memory can have.
pub const RISCV_MAX_MEMORY: u64 = 4_194_304;
/// The most pages that a memory can have.
pub const RISCV_PAGES: u64 = RISCV_MAX_MEMORY / RISCV_PAGESIZE;
/// A page with this flag is not filled again.
pub const FLAG_FREEZED: u8 = 1;
/// Execute loads are made from pages with this flag.
pub const FLAG_EXECUTABLE: u8 = 2;
/// The bit that a permission check looks at.
pub const FLAG_WXORX_BIT: u8 = 2;
/// Stores are made to pages whose W^X bit is as in this one.
pub const FLAG_WRITABLE: u8 = 0;
/// A page that was stored to since it was tracked.
pub const FLAG_DIRTY: u8 = 4;

/// Sparse memory: a page is absent, and reads as zeros, until it is first written. No permission is checked.
///
/// It owns its storage, which is made at creation and never grows: a slot number and a flag for each page, and the
/// slots, each a page of bytes. So [`BadStorage`](crate::Error::BadStorage) is met at creation alone.
#[derive(Clone)]
pub struct SparseMemory {
    slots: Box<[u16]>,
    flags: Box<[u8]>,
    area: Box<[u8]>,
    pub(crate) numbers: archive::Memory,
}

/// W^X memory over sparse memory: a page is written or executed, not both.
#[derive(Clone)]
pub struct WXorXMemory {
    inner: SparseMemory,
}

impl SparseMemory {
    /// Storage that no call has made fresh yet. A size above the maximum has none: every such size is refused.
    pub(crate) fn storage(size: u64, slots: u16) -> SparseMemory {
        let pages = usize::from(pages_of(size));
        SparseMemory {
            slots: vec![0; pages].into(),
            flags: vec![0; pages].into(),
            area: vec![0; usize::from(slots) * RISCV_PAGESIZE as usize].into(),
            numbers: archive::Memory { size: 0, used: 0, reservation: 0 },
        }
    }

    pub(crate) fn lend(&mut self) -> (Lent<'_>, archive::Memory) {
        (Lent { slots: &mut self.slots, flags: &mut self.flags, area: &mut self.area }, self.numbers)
    }

    pub(crate) fn show(&self) -> (Seen<'_>, archive::Memory) {
        (Seen { slots: &self.slots, flags: &self.flags, area: &self.area }, self.numbers)
    }

    fn stored(&mut self, Stored { number, used }: Stored) -> Result<()> {
        self.numbers.used = used;
        answer(number)
    }

    /// The memory whose storage is lent.
    fn sparse(&self) -> &SparseMemory {
        self
    }

    fn sparse_mut(&mut self) -> &mut SparseMemory {
        self
    }

    fn over(sparse: SparseMemory) -> Self {
        sparse
    }
}

impl WXorXMemory {
    /// The sparse memory below.
    pub fn inner(&self) -> &SparseMemory {
        &self.inner
    }

    /// The sparse memory below, whose stores check no permission.
    pub fn inner_mut(&mut self) -> &mut SparseMemory {
        &mut self.inner
    }

    fn sparse(&self) -> &SparseMemory {
        &self.inner
    }

    fn sparse_mut(&mut self) -> &mut SparseMemory {
        &mut self.inner
    }

    pub(crate) fn over(inner: SparseMemory) -> Self {
        WXorXMemory { inner }
    }
}

fn value(Value { number, value }: Value) -> Result<u64> {
    answer(number).map(|()| value)
}

/// How many whole pages a memory of `size` bytes has; none for a size above the maximum.
pub(crate) fn pages_of(size: u64) -> u16 {
    if size <= RISCV_MAX_MEMORY { (size / RISCV_PAGESIZE) as u16 } else { 0 }
}

macro_rules! loads {
    ($calls:expr, $($(#[$doc:meta])* $call:ident -> $word:ty),*) => {
        $($(#[$doc])*
        #[inline]
        pub fn $call(&self, addr: u64) -> Result<$word> {
            let (seen, numbers) = self.sparse().show();
            value(seen::$call($calls, seen, numbers, addr)).map(|value| value as $word)
        })*
    };
}

macro_rules! stores {
    ($calls:expr, $($(#[$doc:meta])* $call:ident),*) => {
        $($(#[$doc])*
        ///
        /// Refused as [`store_bytes`](Self::store_bytes) is.
        #[inline]
        pub fn $call(&mut self, addr: u64, value: u64) -> Result<()> {
            let sparse = self.sparse_mut();
            let (lent, numbers) = sparse.lend();
            let stored = $calls.$call(lent, numbers, addr, value);
            sparse.stored(stored)
        })*
    };
}

/// The calls that both memories have.
macro_rules! memory {
    ($memory:ty, $calls:expr) => {
        impl $memory {
            const CALLS: &'static Calls = $calls;

            /// A fresh memory of `size` bytes with a slot for every page.
            ///
            /// Refused 9: a size that is not whole pages, or above [`RISCV_MAX_MEMORY`].
            pub fn new(size: u64) -> Result<Self> {
                Self::with_slots(size, pages_of(size))
            }

            /// A fresh memory of `size` bytes with so many slots: once all are in use, a store to an absent page is
            /// refused 7.
            ///
            /// Refused 9: a size that is not whole pages, or above [`RISCV_MAX_MEMORY`].
            pub fn with_slots(size: u64, slots: u16) -> Result<Self> {
                let mut sparse = SparseMemory::storage(size, slots);
                let (lent, _) = sparse.lend();
                let Fresh { number, memory } = Self::CALLS.fresh(lent, size);
                answer(number)?;
                sparse.numbers = memory;
                Ok(Self::over(sparse))
            }

            /// Makes it fresh again: every page absent, all flags 0, the reservation 2^64-1.
            pub fn fresh(&mut self) -> Result<()> {
                let sparse = self.sparse_mut();
                let (lent, numbers) = sparse.lend();
                let Fresh { number, memory } = Self::CALLS.fresh(lent, numbers.size);
                answer(number)?;
                sparse.numbers = memory;
                Ok(())
            }

            /// Fills `size` bytes at `addr`: `offset_from_addr` zeros, the source, zeros. No source is an empty one.
            ///
            /// A sparse memory does so at any address and looks at no flag; `flags` is passed over. Refused 2 or 7: the
            /// part before stays.
            ///
            /// A W^X memory first sets `flags` on each page. Refused, no byte written: 3 where `addr` or `size` is not
            /// whole pages; 2 where they leave the memory or `offset_from_addr` passes the size; 5 at the first frozen
            /// page, earlier ones having their flags.
            pub fn init_pages(
                &mut self,
                addr: u64,
                size: u64,
                flags: u8,
                source: &[u8],
                offset_from_addr: u64,
            ) -> Result<()> {
                let sparse = self.sparse_mut();
                let (lent, numbers) = sparse.lend();
                let stored = Self::CALLS.init_pages(lent, source, numbers, addr, size, flags, offset_from_addr);
                sparse.stored(stored)
            }

            /// A page's flag. Refused 2: a page past the memory.
            #[inline]
            pub fn fetch_flag(&self, page: u64) -> Result<u8> {
                let (seen, numbers) = self.sparse().show();
                value(seen::fetch_flag(Self::CALLS, seen, numbers, page)).map(|flag| flag as u8)
            }

            /// ORs `flag` to a page's. Refused 2: a page past the memory; nothing changed.
            #[inline]
            pub fn set_flag(&mut self, page: u64, flag: u8) -> Result<()> {
                let (lent, numbers) = self.sparse_mut().lend();
                answer(Self::CALLS.set_flag(lent, numbers, page, flag))
            }

            /// Clears the bits of `flag` in a page's. Refused 2: a page past the memory; nothing changed.
            ///
            /// A machine whose dirty flags were cleared by this call may no longer be sound: what a snapshot would
            /// restore from a source need not be what the page holds.
            #[inline]
            pub fn clear_flag(&mut self, page: u64, flag: u8) -> Result<()> {
                let (lent, numbers) = self.sparse_mut().lend();
                answer(Self::CALLS.clear_flag(lent, numbers, page, flag))
            }

            /// The memory's bytes.
            #[inline]
            pub fn memory_size(&self) -> u64 {
                Self::CALLS.memory_size(self.sparse().numbers)
            }

            /// The memory's pages.
            #[inline]
            pub fn memory_pages(&self) -> u64 {
                Self::CALLS.memory_pages(self.sparse().numbers)
            }

            /// Stores `value` `size` times from `addr` on.
            ///
            /// Refused as [`store_bytes`](Self::store_bytes) is.
            #[inline]
            pub fn store_byte(&mut self, addr: u64, size: u64, value: u8) -> Result<()> {
                let sparse = self.sparse_mut();
                let (lent, numbers) = sparse.lend();
                let stored = Self::CALLS.store_byte(lent, numbers, addr, size, value);
                sparse.stored(stored)
            }

            /// Stores bytes from `addr` on; each page is marked dirty as it is written. No bytes are stored at every
            /// address.
            ///
            /// A sparse memory goes page by page. Refused 2 where a page is past the memory, 7 where an absent page
            /// finds no slot: the part before stays.
            ///
            /// A W^X memory first looks at all pages. Refused, nothing changed: 2 where the end is past
            /// [`RISCV_MAX_MEMORY`] or a page past the memory, 4 where a page is executable. Then it stores as a sparse
            /// memory does.
            #[inline]
            pub fn store_bytes(&mut self, addr: u64, value: &[u8]) -> Result<()> {
                let sparse = self.sparse_mut();
                let (lent, numbers) = sparse.lend();
                let stored = Self::CALLS.store_bytes(lent, value, numbers, addr);
                sparse.stored(stored)
            }

            /// Fills `out` with the bytes from `addr` on. No bytes are loaded at every address.
            ///
            /// Refused 2: the end is past the memory; nothing written.
            #[inline]
            pub fn load_bytes(&self, addr: u64, out: &mut [u8]) -> Result<()> {
                self.load_bytes_into(addr, out.len() as u64, out)
            }

            /// With the size apart from the output's length: refused 8 where the output is shorter.
            pub(crate) fn load_bytes_into(&self, addr: u64, size: u64, out: &mut [u8]) -> Result<()> {
                let (seen, numbers) = self.sparse().show();
                answer(seen::load_bytes(Self::CALLS, seen, out, numbers, addr, size))
            }

            /// Loads the string at `addr` into the front of `out`, without its zero byte: its length.
            ///
            /// Refused 2 where it runs past the memory, 8 where the output is full: the bytes read so far stand in
            /// `out`.
            pub fn load_c_string(&self, addr: u64, out: &mut [u8]) -> Result<usize> {
                let (seen, numbers) = self.sparse().show();
                value(seen::load_c_string(Self::CALLS, seen, out, numbers, addr)).map(|length| length as usize)
            }

            loads!(Self::CALLS,
                /// Two bytes of an instruction. Refused 2: past the memory; by a W^X memory also past
                /// [`RISCV_MAX_MEMORY`], and 4 where a page is not executable.
                execute_load16 -> u16,
                /// Four bytes of an instruction. Refused as [`execute_load16`](Self::execute_load16) is.
                execute_load32 -> u32,
                /// A byte. Refused 2: past the memory.
                load8 -> u64,
                /// Two bytes, little-endian. Refused 2: past the memory.
                load16 -> u64,
                /// Four bytes, little-endian. Refused 2: past the memory.
                load32 -> u64,
                /// Eight bytes, little-endian. Refused 2: past the memory.
                load64 -> u64
            );

            stores!(Self::CALLS,
                /// Stores the low byte of `value`.
                store8,
                /// Stores the low two bytes of `value`, little-endian.
                store16,
                /// Stores the low four bytes of `value`, little-endian.
                store32,
                /// Stores `value`, little-endian.
                store64
            );

            /// The load reservation address.
            #[inline]
            pub fn lr(&self) -> u64 {
                Self::CALLS.lr(self.sparse().numbers)
            }

            #[cfg(feature = "upstream")]
            pub(crate) fn reservation(&self) -> &u64 {
                &self.sparse().numbers.reservation
            }

            /// Sets the load reservation address.
            #[inline]
            pub fn set_lr(&mut self, value: u64) {
                let sparse = self.sparse_mut();
                sparse.numbers = Self::CALLS.set_lr(sparse.numbers, value);
            }
        }

        impl fmt::Debug for $memory {
            fn fmt(&self, f: &mut fmt::Formatter) -> fmt::Result {
                f.debug_struct(stringify!($memory))
                    .field("memory_size", &self.memory_size())
                    .field("lr", &self.lr())
                    .finish_non_exhaustive()
            }
        }
    };
}

memory!(SparseMemory, &SPARSE);
memory!(WXorXMemory, &WXORX);

/// The end of the page that `x` lies in, `x` itself where it is whole pages; modulo 2^64.
pub fn round_page_up(x: u64) -> u64 {
    archive::round_page_up(x)
}

/// The start of the page that `x` lies in.
pub fn round_page_down(x: u64) -> u64 {
    archive::round_page_down(x)
}

/// The first and the last page of `size` bytes at `addr`.
///
/// Refused 2: a size of 0, or an end past [`RISCV_MAX_MEMORY`], whatever a memory's size.
pub fn get_page_indices(addr: u64, size: u64) -> Result<(u64, u64)> {
    let Indices { number, first, last } = archive::get_page_indices(addr, size);
    answer(number).map(|()| (first, last))
}

/// Whether the pages from the first to the last have the W^X bit of `flag`. A W^X memory's flags are its
/// [`inner`](WXorXMemory::inner) memory's.
///
/// Refused at the first page that is past the memory (2) or has another W^X bit (4).
pub fn check_permission(memory: &SparseMemory, page_indices: (u64, u64), flag: u8) -> Result<()> {
    let (seen, numbers) = memory.show();
    answer(seen::check_permission(seen, numbers, page_indices.0, page_indices.1, flag))
}

/// Marks the pages from the first to the last dirty.
///
/// Refused 2 at the first page past the memory: the pages before it are marked.
pub fn set_dirty(memory: &mut SparseMemory, page_indices: (u64, u64)) -> Result<()> {
    let (lent, numbers) = memory.lend();
    answer(archive::set_dirty(lent, numbers, page_indices.0, page_indices.1))
}

/// Fills `size` bytes at `addr`: `offset_from_addr` zeros, the source, zeros. It is a sparse memory's
/// [`init_pages`](SparseMemory::init_pages).
pub fn fill_page_data(
    memory: &mut SparseMemory,
    addr: u64,
    size: u64,
    source: &[u8],
    offset_from_addr: u64,
) -> Result<()> {
    let (lent, numbers) = memory.lend();
    let stored = archive::fill_page_data(lent, source, numbers, addr, size, offset_from_addr);
    memory.stored(stored)
}
