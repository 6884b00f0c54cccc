//! Every method of the memories and every function beside them, done and refused, on answers written from document 01.

use latchpebble::Error::{
    self, AllSlotsInUse, BadStorage, MemOutOfBound, MemPageUnalignedAccess, MemWriteOnExecutablePage,
    MemWriteOnFreezedPage, OutputTooShort,
};
use latchpebble::{
    FLAG_DIRTY, FLAG_EXECUTABLE, FLAG_FREEZED, FLAG_WRITABLE, FLAG_WXORX_BIT, RISCV_MAX_MEMORY, RISCV_PAGES,
    RISCV_PAGESIZE, SparseMemory, WXorXMemory, check_permission, fill_page_data, get_page_indices, round_page_down,
    round_page_up, set_dirty,
};

const PAGE: u64 = RISCV_PAGESIZE;
/// Four pages.
const SIZE: u64 = 4 * PAGE;
const NO_RESERVATION: u64 = u64::MAX;

fn loaded<const N: usize>(load: impl FnOnce(&mut [u8]) -> Result<(), Error>) -> Result<[u8; N], Error> {
    let mut out = [0xee; N];
    load(&mut out).map(|()| out)
}

/// What both memories do alike.
macro_rules! alike {
    ($name:ident, $memory:ty) => {
        mod $name {
            use super::*;

            #[test]
            fn sizes() {
                for pages in [0, 1, 4, RISCV_PAGES] {
                    let memory = <$memory>::new(pages * PAGE).unwrap();
                    assert_eq!((memory.memory_size(), memory.memory_pages()), (pages * PAGE, pages));
                }
                for size in [1, PAGE - 1, PAGE + 1, RISCV_MAX_MEMORY + PAGE, u64::MAX, u64::MAX - PAGE + 1] {
                    assert_eq!(<$memory>::new(size).unwrap_err(), BadStorage);
                    assert_eq!(<$memory>::with_slots(size, 1).unwrap_err(), BadStorage);
                }
            }

            #[test]
            fn slots() {
                let mut memory = <$memory>::with_slots(SIZE, 1).unwrap();
                assert_eq!(memory.store64(2 * PAGE - 4, 0x1122_3344_5566_7788), Err(AllSlotsInUse));
                // the page before it is written and dirty, the absent one is not
                assert_eq!(memory.load64(2 * PAGE - 4), Ok(0x5566_7788));
                assert_eq!((memory.fetch_flag(1), memory.fetch_flag(2)), (Ok(FLAG_DIRTY), Ok(0)));
                assert_eq!(memory.store_byte(0, 1, 1), Err(AllSlotsInUse));
                assert_eq!(memory.store8(PAGE, 1), Ok(()));
                // more slots than pages, and none
                assert_eq!(<$memory>::with_slots(PAGE, 9).unwrap().store8(0, 1), Ok(()));
                let mut none = <$memory>::with_slots(PAGE, 0).unwrap();
                assert_eq!((none.store8(0, 1), none.load64(0)), (Err(AllSlotsInUse), Ok(0)));
            }

            #[test]
            fn fresh() {
                let mut memory = <$memory>::new(SIZE).unwrap();
                memory.store_byte(0, SIZE, 0xff).unwrap();
                memory.set_flag(3, FLAG_FREEZED).unwrap();
                memory.set_lr(5);
                memory.fresh().unwrap();
                assert_eq!(loaded(|out| memory.load_bytes(0, out)), Ok([0; SIZE as usize]));
                assert_eq!([0, 1, 2, 3].map(|page| memory.fetch_flag(page)), [Ok(0); 4]);
                assert_eq!((memory.lr(), memory.memory_size()), (NO_RESERVATION, SIZE));
            }

            #[test]
            fn flags() {
                let mut memory = <$memory>::new(SIZE).unwrap();
                assert_eq!(memory.fetch_flag(3), Ok(0));
                assert_eq!(memory.set_flag(3, 0b1001_0001), Ok(()));
                assert_eq!(memory.set_flag(3, 0b0000_0110), Ok(()));
                assert_eq!(memory.clear_flag(3, 0b0001_0010), Ok(()));
                assert_eq!((memory.fetch_flag(3), memory.fetch_flag(2)), (Ok(0b1000_0101), Ok(0)));
                for page in [4, u64::MAX] {
                    assert_eq!(memory.fetch_flag(page), Err(MemOutOfBound));
                    assert_eq!(memory.set_flag(page, 1), Err(MemOutOfBound));
                    assert_eq!(memory.clear_flag(page, 1), Err(MemOutOfBound));
                }
            }

            #[test]
            fn stores_and_loads() {
                let mut memory = <$memory>::new(SIZE).unwrap();
                let at = PAGE - 3;
                memory.store64(at, 0x8877_6655_4433_2211).unwrap();
                assert_eq!(memory.load8(at), Ok(0x11));
                assert_eq!(memory.load16(at), Ok(0x2211));
                assert_eq!(memory.load32(at), Ok(0x4433_2211));
                assert_eq!(memory.load64(at), Ok(0x8877_6655_4433_2211));
                assert_eq!((memory.fetch_flag(0), memory.fetch_flag(1)), (Ok(FLAG_DIRTY), Ok(FLAG_DIRTY)));
                // wide values are cut to their low bytes
                memory.store32(at, 0xffff_ffff_0000_0000).unwrap();
                assert_eq!(memory.load64(at), Ok(0x8877_6655_0000_0000));
                memory.store16(at, 0xffff_abcd).unwrap();
                memory.store8(at + 2, 0xff_ef).unwrap();
                assert_eq!(memory.load64(at), Ok(0x8877_6655_00ef_abcd));
                memory.store_byte(at + 1, 5, 7).unwrap();
                assert_eq!(loaded(|out| memory.load_bytes(at, out)), Ok([0xcd, 7, 7, 7, 7, 7, 0x77, 0x88]));
                memory.store_bytes(at + 2, &[1, 2]).unwrap();
                assert_eq!(memory.load64(at), Ok(0x8877_0707_0201_07cd));
                assert_eq!((memory.fetch_flag(2), memory.fetch_flag(3)), (Ok(0), Ok(0)));
            }

            #[test]
            fn out_of_bound() {
                let mut memory = <$memory>::new(SIZE).unwrap();
                for addr in [SIZE, RISCV_MAX_MEMORY, u64::MAX] {
                    assert_eq!(memory.store8(addr, 1), Err(MemOutOfBound));
                    assert_eq!(memory.store16(addr, 1), Err(MemOutOfBound));
                    assert_eq!(memory.store32(addr, 1), Err(MemOutOfBound));
                    assert_eq!(memory.store64(addr, 1), Err(MemOutOfBound));
                    assert_eq!(memory.store_byte(addr, 1, 1), Err(MemOutOfBound));
                    assert_eq!(memory.store_bytes(addr, &[1]), Err(MemOutOfBound));
                    assert_eq!(memory.load8(addr), Err(MemOutOfBound));
                    assert_eq!(memory.load16(addr), Err(MemOutOfBound));
                    assert_eq!(memory.load32(addr), Err(MemOutOfBound));
                    assert_eq!(memory.load64(addr), Err(MemOutOfBound));
                    assert_eq!(memory.execute_load16(addr), Err(MemOutOfBound));
                    assert_eq!(memory.execute_load32(addr), Err(MemOutOfBound));
                    assert_eq!(loaded::<1>(|out| memory.load_bytes(addr, out)), Err(MemOutOfBound));
                    // nothing is stored and loaded at every address
                    assert_eq!(memory.store_byte(addr, 0, 1), Ok(()));
                    assert_eq!(memory.store_bytes(addr, &[]), Ok(()));
                    assert_eq!(memory.load_bytes(addr, &mut []), Ok(()));
                }
                assert_eq!(memory.load16(SIZE - 1), Err(MemOutOfBound));
                let mut out = [0xee; 2];
                assert_eq!(memory.load_bytes(SIZE - 1, &mut out), Err(MemOutOfBound));
                assert_eq!(out, [0xee; 2]);
            }

            #[test]
            fn c_strings() {
                let mut memory = <$memory>::new(SIZE).unwrap();
                memory.store_bytes(PAGE - 2, b"mass\0").unwrap();
                let mut out = [0xee; 6];
                assert_eq!(memory.load_c_string(PAGE - 2, &mut out), Ok(4));
                assert_eq!(&out, b"mass\xee\xee");
                let mut out = [0xee; 3];
                assert_eq!(memory.load_c_string(PAGE - 2, &mut out), Err(OutputTooShort));
                assert_eq!(&out, b"mas");
                memory.store_bytes(SIZE - 2, b"kg").unwrap();
                let mut out = [0xee; 3];
                assert_eq!(memory.load_c_string(SIZE - 2, &mut out), Err(MemOutOfBound));
                assert_eq!(&out, b"kg\xee");
                assert_eq!(memory.load_c_string(0, &mut []), Ok(0));
            }

            #[test]
            fn reservation() {
                let mut memory = <$memory>::new(SIZE).unwrap();
                assert_eq!(memory.lr(), NO_RESERVATION);
                memory.set_lr(0x1234);
                memory.store8(0, 1).unwrap();
                assert_eq!(memory.lr(), 0x1234);
            }

            #[test]
            fn told() {
                let text = format!("{:?}", <$memory>::new(SIZE).unwrap());
                assert_eq!(text, concat!(stringify!($memory), " { memory_size: 16384, lr: 18446744073709551615, .. }"));
            }
        }
    };
}

alike!(both_sparse, SparseMemory);
alike!(both_wxorx, WXorXMemory);

#[test]
fn sparse_checks_no_permission() {
    let mut memory = SparseMemory::new(SIZE).unwrap();
    memory.set_flag(1, FLAG_EXECUTABLE).unwrap();
    assert_eq!(memory.store64(PAGE, 0x6f), Ok(()));
    assert_eq!((memory.execute_load16(0), memory.execute_load32(PAGE)), (Ok(0), Ok(0x6f)));
    // of two bytes at the end, one is written
    assert_eq!(memory.store16(SIZE - 1, 0x0201), Err(MemOutOfBound));
    assert_eq!((memory.load8(SIZE - 1), memory.fetch_flag(3)), (Ok(1), Ok(FLAG_DIRTY)));
}

#[test]
fn wxorx_checks_permission() {
    let mut memory = WXorXMemory::new(SIZE).unwrap();
    memory.set_flag(1, FLAG_EXECUTABLE).unwrap();
    for addr in [PAGE, PAGE - 1, 2 * PAGE - 1] {
        assert_eq!(memory.store16(addr, 0x0201), Err(MemWriteOnExecutablePage));
        assert_eq!(memory.store32(addr, 0x0201), Err(MemWriteOnExecutablePage));
        assert_eq!(memory.store64(addr, 0x0201), Err(MemWriteOnExecutablePage));
        assert_eq!(memory.store_byte(addr, 2, 1), Err(MemWriteOnExecutablePage));
        assert_eq!(memory.store_bytes(addr, &[1, 2]), Err(MemWriteOnExecutablePage));
    }
    assert_eq!(memory.store8(PAGE, 1), Err(MemWriteOnExecutablePage));
    assert_eq!([0, 1, 2].map(|page| memory.fetch_flag(page)), [Ok(0), Ok(FLAG_EXECUTABLE), Ok(0)]);
    assert_eq!(memory.load64(PAGE - 4), Ok(0));
    for addr in [0, PAGE - 1, 2 * PAGE - 1] {
        assert_eq!(memory.execute_load16(addr), Err(MemWriteOnExecutablePage));
        assert_eq!(memory.execute_load32(addr), Err(MemWriteOnExecutablePage));
    }
    memory.inner_mut().store64(PAGE + 2, 0x1122_3344_5566_7788).unwrap();
    assert_eq!((memory.execute_load16(PAGE + 2), memory.execute_load32(PAGE + 2)), (Ok(0x7788), Ok(0x5566_7788)));
    assert_eq!(memory.inner().load64(PAGE + 2), memory.load64(PAGE + 2));
    // at the end nothing is written
    assert_eq!(memory.store16(SIZE - 1, 0x0201), Err(MemOutOfBound));
    assert_eq!((memory.load8(SIZE - 1), memory.fetch_flag(3)), (Ok(0), Ok(0)));
}

#[test]
fn sparse_init_pages() {
    let mut memory = SparseMemory::new(SIZE).unwrap();
    memory.store_byte(0, SIZE, 0xff).unwrap();
    memory.clear_flag(0, FLAG_DIRTY).unwrap();
    // at any address, the flags passed over
    assert_eq!(memory.init_pages(1, 7, FLAG_FREEZED, &[1, 2, 3], 2), Ok(()));
    assert_eq!(loaded(|out| memory.load_bytes(0, out)), Ok([0xff, 0, 0, 1, 2, 3, 0, 0, 0xff]));
    assert_eq!(memory.fetch_flag(0), Ok(FLAG_DIRTY));
    // a source that is longer, a lead above the size, and no source
    assert_eq!(memory.init_pages(16, 2, 0, &[1, 2, 3], 1), Ok(()));
    assert_eq!(memory.init_pages(24, 2, 0, &[1, 2, 3], 9), Ok(()));
    assert_eq!(memory.init_pages(32, 2, 0, &[], 0), Ok(()));
    assert_eq!(
        (memory.load32(16), memory.load32(24), memory.load32(32)),
        (Ok(0xffff_0100), Ok(0xffff_0000), Ok(0xffff_0000))
    );
    assert_eq!(memory.init_pages(SIZE - 2, 4, 0, &[1, 2], 1), Err(MemOutOfBound));
    assert_eq!(memory.load16(SIZE - 2), Ok(0x0100));
}

#[test]
fn wxorx_init_pages() {
    let mut memory = WXorXMemory::new(SIZE).unwrap();
    let flags = FLAG_EXECUTABLE | FLAG_FREEZED;
    assert_eq!(memory.init_pages(PAGE, 2 * PAGE, flags, &[1, 2, 3], 5), Ok(()));
    assert_eq!(memory.load64(PAGE + 4), Ok(0x0302_0100));
    let dirty = flags | FLAG_DIRTY;
    assert_eq!([0, 1, 2, 3].map(|page| memory.fetch_flag(page)), [Ok(0), Ok(dirty), Ok(dirty), Ok(0)]);
    assert_eq!(memory.init_pages(1, PAGE, 0, &[], 0), Err(MemPageUnalignedAccess));
    assert_eq!(memory.init_pages(PAGE, 1, 0, &[], 0), Err(MemPageUnalignedAccess));
    assert_eq!(memory.init_pages(SIZE, PAGE, 0, &[], 0), Err(MemOutOfBound));
    assert_eq!(memory.init_pages(SIZE + PAGE, 0, 0, &[], 0), Err(MemOutOfBound));
    assert_eq!(memory.init_pages(0, PAGE, 0, &[], PAGE + 1), Err(MemOutOfBound));
    assert_eq!(memory.init_pages(SIZE, 0, 0, &[], 0), Ok(()));
    // the page before the frozen one has its flags
    assert_eq!(memory.init_pages(0, 2 * PAGE, 8, &[1], 0), Err(MemWriteOnFreezedPage));
    assert_eq!((memory.fetch_flag(0), memory.load8(0)), (Ok(8), Ok(0)));
}

#[test]
fn rounding_and_pages() {
    assert_eq!([0, 1, PAGE, 4_097, u64::MAX].map(round_page_up), [0, PAGE, PAGE, 8_192, 0]);
    assert_eq!([0, 4_095, PAGE, u64::MAX].map(round_page_down), [0, 0, PAGE, u64::MAX - 4_095]);
    assert_eq!(get_page_indices(4_095, 2), Ok((0, 1)));
    assert_eq!(get_page_indices(4_194_303, 1), Ok((1_023, 1_023)));
    for (addr, size) in [(4_194_303, 2), (0, 0), (u64::MAX, 1), (1, u64::MAX)] {
        assert_eq!(get_page_indices(addr, size), Err(MemOutOfBound));
    }
}

#[test]
fn permission_dirty_and_fill() {
    let mut memory = SparseMemory::new(SIZE).unwrap();
    memory.set_flag(2, FLAG_EXECUTABLE).unwrap();
    assert_eq!(check_permission(&memory, (0, 1), FLAG_WRITABLE), Ok(()));
    assert_eq!(check_permission(&memory, (2, 2), FLAG_EXECUTABLE | FLAG_FREEZED), Ok(()));
    assert_eq!(check_permission(&memory, (1, 9), FLAG_WRITABLE), Err(MemWriteOnExecutablePage));
    assert_eq!(check_permission(&memory, (3, 4), FLAG_WRITABLE), Err(MemOutOfBound));
    assert_eq!(check_permission(&memory, (3, 2), FLAG_WRITABLE), Ok(()));

    assert_eq!(set_dirty(&mut memory, (1, 2)), Ok(()));
    let dirty = FLAG_DIRTY | FLAG_EXECUTABLE;
    assert_eq!([0, 1, 2, 3].map(|page| memory.fetch_flag(page)), [Ok(0), Ok(FLAG_DIRTY), Ok(dirty), Ok(0)]);
    assert_eq!(set_dirty(&mut memory, (3, 4)), Err(MemOutOfBound));
    assert_eq!(memory.fetch_flag(3), Ok(FLAG_DIRTY));

    memory.store_byte(0, 8, 0xff).unwrap();
    assert_eq!(fill_page_data(&mut memory, 1, 5, &[1, 2], 1), Ok(()));
    assert_eq!(memory.load64(0), Ok(0xffff_0000_0201_00ff));
    assert_eq!(fill_page_data(&mut memory, SIZE - 1, 2, &[7, 7], 0), Err(MemOutOfBound));
    assert_eq!(memory.load8(SIZE - 1), Ok(7));
}

#[test]
fn constants_are_the_archives() {
    assert_eq!(round_page_up(1), RISCV_PAGESIZE);
    assert_eq!(get_page_indices(RISCV_MAX_MEMORY - 1, 1), Ok((RISCV_PAGES - 1, RISCV_PAGES - 1)));
    assert_eq!(get_page_indices(RISCV_MAX_MEMORY, 1), Err(MemOutOfBound));
    // each flag bit by what is refused for it
    let mut memory = WXorXMemory::new(SIZE).unwrap();
    assert_eq!(memory.init_pages(0, PAGE, FLAG_FREEZED, &[], 0), Ok(()));
    assert_eq!(memory.init_pages(0, PAGE, 0, &[], 0), Err(MemWriteOnFreezedPage));
    assert_eq!(memory.fetch_flag(0), Ok(FLAG_FREEZED | FLAG_DIRTY));
    for bit in 0..8 {
        let mut memory = WXorXMemory::new(SIZE).unwrap();
        memory.set_flag(0, 1 << bit).unwrap();
        let executable = 1 << bit == FLAG_EXECUTABLE;
        assert_eq!((1 << bit == FLAG_WXORX_BIT, FLAG_WRITABLE), (executable, 0));
        assert_eq!((memory.execute_load16(0).is_ok(), memory.store8(0, 0).is_ok()), (executable, !executable));
    }
}
