//! The forms of answers (docs/CALL-SCRIPT.md, document 01's table): the numbers that a call can answer, how many values
//! follow, what they are on a refusal, and what an output keeps.

use crate::encode::from_hex;
use crate::port::callscript::{NONE_OF_THESE, UNWRITTEN};

type Checked = Result<(), String>;

/// The word that names what a line asks: `store8` for `0 w.store8 ..`.
pub fn word(text: &str) -> &str {
    let mut words = text.split(' ');
    let first = words.next().unwrap_or_default();
    match first.parse::<u64>() {
        Err(_) => first,
        Ok(_) => words.next().map_or("", |name| name.trim_start_matches("s.").trim_start_matches("w.")),
    }
}

/// The numbers that a call answers, and how many values follow.
fn numbers(text: &str) -> (&'static [u32], usize) {
    let sparse = text.contains(" s.");
    match word(text) {
        "fresh" => (&[0, 9], 0),
        "roundup" | "rounddown" | "lr" | "pc" | "version" | "cycles" | "max_cycles" => (&[0], 1),
        "set_lr" | "update_pc" | "commit_pc" | "set_cycles" | "set_max_cycles" => (&[0], 0),
        "page_indices" => (&[0, 2], 2),
        "store_bytes" | "store_byte" | "store8" | "store16" | "store32" | "store64" if sparse => (&[0, 2, 7, 9], 0),
        "store_bytes" | "store_byte" | "store8" | "store16" | "store32" | "store64" => (&[0, 2, 4, 7, 9], 0),
        "load8" | "load16" | "load32" | "load64" | "fetch_flag" => (&[0, 2, 9], 1),
        "execute_load16" | "execute_load32" if sparse => (&[0, 2, 9], 1),
        "execute_load16" | "execute_load32" => (&[0, 2, 4, 9], 1),
        "load_bytes" => (&[0, 2, 8, 9], 1),
        "load_c_string" => (&[0, 2, 8, 9], 2),
        "init_pages" if sparse => (&[0, 2, 7, 9], 0),
        "init_pages" => (&[0, 2, 3, 5, 7, 9], 0),
        "set_flag" | "clear_flag" | "track" | "untrack" | "mark" => (&[0, 2, 9], 0),
        "register" => (&[0, 10], 1),
        "set_register" => (&[0, 10], 0),
        "load_data" => (&[0, 6], 2),
        "context" => (&[0, 2, 4, 6, 7, 9], 2),
        "snapshot" => (&[0, 8, 9], 2),
        "resume" => (&[0, 1, 2, 3, 4, 6, 7, 9, 11], 0),
        "show" => (&[0], 3),
        "dump" => (&[0, 9], 4),
        "raw" => (&[0], 3),
        other => unreachable!("no line asks {other}"),
    }
}

/// Whether the port's answer to a line has its form.
pub fn check(text: &str, answer: &str) -> Checked {
    if answer == NONE_OF_THESE {
        return Ok(());
    }
    let (numbers, count) = numbers(text);
    let mut words = answer.split(' ');
    let number: u32 = words.next().and_then(|n| n.parse().ok()).ok_or("no number")?;
    let values: Vec<&str> = words.collect();
    let name = word(text);
    if !numbers.contains(&number) {
        return Err(format!("{number} is none of its numbers"));
    }
    if values.len() != count && !(name == "dump" && values.len() > count) {
        return Err(format!("{count} values should follow"));
    }
    let asked = |i: usize| text.split(' ').nth(i).and_then(|n| n.parse::<u64>().ok()).unwrap_or_default();
    let value = |i: usize| values[i].parse::<u64>().map_err(|_| format!("not a number: {:.40}", values[i]));
    match name {
        "load_bytes" => return output(values[0], asked(4), if number == 0 { asked(3) } else { 0 }),
        "load_c_string" => {
            let length = value(0)?;
            return match number {
                0 => output(values[1], asked(3), length),
                _ if length != 0 => Err("a length at a refusal".into()),
                _ => output(values[1], asked(3), asked(3)),
            };
        }
        _ => {}
    }
    if number != 0 {
        return match values.iter().all(|value| *value == "0" || name == "load_data" && *value == "-") {
            true => Ok(()),
            false => Err("a value at a refusal".into()),
        };
    }
    let bound = |i: usize, most: u64| match value(i)? {
        n if n > most => Err(format!("{n} is above {most}")),
        _ => Ok(()),
    };
    match name {
        "load8" | "fetch_flag" => bound(0, u8::MAX.into()),
        "load16" | "execute_load16" => bound(0, u16::MAX.into()),
        "load32" | "execute_load32" | "version" => bound(0, u32::MAX.into()),
        "load64" | "register" | "pc" | "lr" | "cycles" | "max_cycles" | "roundup" | "rounddown" => bound(0, u64::MAX),
        "page_indices" => {
            bound(0, value(1)?)?;
            bound(1, 1023)
        }
        "load_data" => {
            let count = from_hex(values[1]).ok_or("not hex digits")?.len() as u64;
            if count == value(0)?.min(asked(4)) { Ok(()) } else { Err("other bytes than asked for".into()) }
        }
        "context" => {
            let stored = asked(5).min(value(1)?);
            if value(0)? == stored { Ok(()) } else { Err(format!("{stored} should be stored")) }
        }
        "snapshot" => {
            bound(0, 1033.min(asked(3) / 48))?;
            bound(1, 1024.min(asked(4) / 4096))?;
            if value(0)? < 9 { Err("fewer than nine records".into()) } else { Ok(()) }
        }
        _ => Ok(()),
    }
}

/// An output in hex of so many bytes, of which at most so many are written.
fn output(digits: &str, room: u64, written: u64) -> Checked {
    let bytes = from_hex(digits).ok_or("not hex digits")?;
    if bytes.len() as u64 != room {
        return Err(format!("an output of {} bytes, not {room}", bytes.len()));
    }
    match bytes.get(written as usize..) {
        None => Err(format!("{written} bytes are more than the output has")),
        Some(rest) if rest.iter().any(|byte| *byte != UNWRITTEN) => Err("a byte past those written".into()),
        Some(_) => Ok(()),
    }
}
