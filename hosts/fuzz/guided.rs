//! libFuzzer's driver, and the archive's blocks beside the edges of the Rust.

use crate::Counts;
use std::ffi::{CString, c_char, c_int};
use std::process::ExitCode;
use std::sync::Mutex;

type Test = extern "C" fn(*const u8, usize) -> c_int;

unsafe extern "C" {
    fn LLVMFuzzerRunDriver(count: *mut c_int, words: *mut *mut *mut c_char, test: Test) -> c_int;
    fn atexit(then: extern "C" fn()) -> c_int;
    /// blocks.c
    fn blocks_watch(list: *const c_char) -> c_int;
    fn blocks_print();
}

static COUNTS: Mutex<Option<Counts>> = Mutex::new(None);

extern "C" fn test(bytes: *const u8, count: usize) -> c_int {
    // libFuzzer's own array, of so many bytes
    let bytes = if count == 0 { &[] } else { unsafe { std::slice::from_raw_parts(bytes, count) } };
    let mut counts = COUNTS.lock().expect("one thread");
    crate::run(bytes, counts.get_or_insert_default(), |_, _| {});
    0
}

extern "C" fn print() {
    if let Ok(counts) = COUNTS.try_lock() {
        counts.iter().for_each(Counts::print);
    }
    unsafe { blocks_print() }
}

/// `fuzz run BLOCKS ..`: the list of the archive's blocks, and libFuzzer's words.
pub fn main(blocks: &str, words: &[&str]) -> Result<(), ExitCode> {
    let c_string = |word: &str| CString::new(word).expect("an argument has no zero byte");
    // the command that libFuzzer runs where it wants another process of this program (-merge=1)
    let this = std::env::current_exe().map_or("fuzz".into(), |path| path.display().to_string());
    let this = format!("{this} run {blocks}");
    let mut held: Vec<CString> = std::iter::once(&this[..]).chain(words.iter().copied()).map(c_string).collect();
    let mut words: Vec<*mut c_char> = held.iter_mut().map(|word| word.as_ptr().cast_mut()).collect();
    let mut count = words.len() as c_int;
    words.push(std::ptr::null_mut());
    let mut start = words.as_mut_ptr();
    // libFuzzer writes no word, and ends the program itself; the words are held up to then
    unsafe {
        if blocks_watch(c_string(blocks).as_ptr()) != 0 {
            return Err(2.into());
        }
        atexit(print);
        LLVMFuzzerRunDriver(&mut count, &mut start, test);
    }
    Ok(())
}
