//! A call script to bytes that make one like it.

use crate::decode::Operand::*;
use crate::decode::{FREE, Head, KINDS, MOST_HEX, NAMED, PAGE, tag};
use std::io::{Read as _, Write as _};
use std::process::ExitCode;

/// Bytes of hex digits, `-` for none.
pub fn from_hex(digits: &str) -> Option<Vec<u8>> {
    if digits == "-" {
        return Some(vec![]);
    }
    let digit = |d: u8| (d as char).to_digit(16).map(|d| d as u8);
    let (pairs, rest) = digits.as_bytes().as_chunks::<2>();
    let bytes = pairs.iter().map(|[high, low]| Some(digit(*high)? << 4 | digit(*low)?)).collect();
    if rest.is_empty() { bytes } else { None }
}

/// The script is on standard input, and its bytes go to standard output.
pub fn main() -> Result<(), ExitCode> {
    let mut text = String::new();
    let read = std::io::stdin().read_to_string(&mut text);
    read.and_then(|_| std::io::stdout().write_all(&encoded(&text))).map_err(|e| {
        eprintln!("fuzz: {e}");
        2.into()
    })
}

/// Bytes whose script is like this one: line by line the same call on a machine of the same parity, with the same
/// numbers; lines that can't be made are left out. Scripts that lend wrong storage go to the machines that may leave the
/// domain.
fn encoded(script: &str) -> Vec<u8> {
    let lines = || script.lines().map(|line| line.split_ascii_whitespace().collect::<Vec<_>>());
    let few = |words: &[&str]| match *words {
        ["fresh", _, size, slots, ..] => slots.parse::<u64>().ok() < size.parse::<u64>().ok().map(|size| size / PAGE),
        [first, ..] => matches!(first, "lend" | "slot" | "used"),
        [] => false,
    };
    let free = lines().any(|words| few(&words));
    let mut bytes = vec![4];
    for words in lines() {
        bytes.extend(encoded_line(&words, free).unwrap_or_default());
    }
    bytes
}

fn encoded_line(words: &[&str], free: bool) -> Option<Vec<u8>> {
    let (first, rest) = words.split_first()?;
    let (name, machine, rest) = match first.parse::<u8>() {
        Ok(machine) => (*rest.first()?, machine, &rest[1..]),
        Err(_) if matches!(*first, "fresh" | "lend" | "slot" | "used") => {
            (*first, rest.first()?.parse().ok()?, &rest[1..])
        }
        Err(_) => (*first, 0, rest),
    };
    let layer = if name.starts_with("s.") { 4 } else { 0 };
    let name = name.trim_start_matches("s.").trim_start_matches("w.");
    let at = KINDS.iter().position(|kind| kind.word == name)?;
    let kind = &KINDS[at];
    let mut bytes = vec![KINDS[..at].iter().map(|kind| kind.weight).sum()];
    if kind.head != Head::Plain {
        bytes.push(machine % 2 | if free { FREE as u8 } else { 0 } | layer);
    }
    let mut rest = rest.iter();
    for operand in kind.operands {
        let mut word = || rest.next().copied();
        match operand {
            Number => put_number(&mut bytes, word()?.parse().ok()?),
            Byte => bytes.push(word()?.parse().ok()?),
            Flag => put_flag(&mut bytes, word()?.parse().ok()?),
            Short => bytes.extend(word()?.parse::<u16>().ok()?.to_le_bytes()),
            Id => match word()?.parse().ok()? {
                id @ 7..10 => bytes.push(id as u8 - 7),
                id => {
                    bytes.push(240);
                    put_number(&mut bytes, id);
                }
            },
            Read | Written | Given => bytes.push(word()?.bytes().next_back()? % 4),
            Data => put_data(&mut bytes, word()?)?,
            Files => {
                bytes.push(tag::RAW);
                put_data(&mut bytes, word()?)?;
                put_data(&mut bytes, word()?)?;
            }
            Size => {
                bytes.push(224);
                put_number(&mut bytes, word()?.parse().ok()?);
            }
            Slots => match word()?.parse().ok()? {
                _ if !free => bytes.push(0),
                slots @ 0..8 => bytes.push(128 + slots as u8),
                slots => {
                    bytes.push(224);
                    put_number(&mut bytes, slots);
                }
            },
            Version => match word()?.parse().ok()? {
                version @ 0..3 => bytes.push(version as u8),
                version => {
                    bytes.push(250);
                    put_number(&mut bytes, version);
                }
            },
            Lengths => match word() {
                None => bytes.push(0),
                Some(length) => {
                    bytes.extend([1, 224]);
                    put_number(&mut bytes, length.parse().ok()?);
                    for _ in 0..3 {
                        bytes.push(224);
                        put_number(&mut bytes, word()?.parse().ok()?);
                    }
                }
            },
            Room => {
                bytes.push(200);
                put_number(&mut bytes, word()?.parse().ok()?);
            }
            RecordRoom | PageRoom => {
                bytes.push(224);
                put_number(&mut bytes, word()?.parse().ok()?);
            }
            Actions => {
                let numbers: Vec<u64> = rest.by_ref().map_while(|word| word.parse().ok()).collect();
                let count = (numbers.len() / 6).min(3);
                bytes.push(count as u8);
                for (i, number) in numbers[..6 * count].iter().enumerate() {
                    match i % 6 {
                        2 => put_flag(&mut bytes, *number as u8),
                        _ => put_number(&mut bytes, *number),
                    }
                }
            }
        }
    }
    Some(bytes)
}

fn put_flag(bytes: &mut Vec<u8>, flag: u8) {
    match flag {
        0..8 => bytes.push(flag),
        _ => bytes.extend([192, flag]),
    }
}

fn put_number(bytes: &mut Vec<u8>, n: u64) {
    let by = |base: u64| i8::try_from(n.wrapping_sub(base) as i64).ok();
    let page = n.wrapping_add(PAGE / 2) / PAGE;
    if n < tag::NEAR_PAGE.into() {
        bytes.push(n as u8);
    } else if n.is_multiple_of(PAGE) && n / PAGE < (tag::WHOLE - tag::PAGES).into() {
        bytes.push(tag::PAGES + (n / PAGE) as u8);
    } else if let (0..32, Some(by)) = (page, by(page * PAGE)) {
        bytes.extend([tag::NEAR_PAGE + page as u8, by as u8]);
    } else if let Some((i, by)) = NAMED.iter().enumerate().find_map(|(i, named)| Some((i, by(*named)?))) {
        bytes.extend([tag::NEAR_NAMED + i as u8, by as u8]);
    } else if let Ok(short) = u16::try_from(n) {
        bytes.push(tag::SHORT);
        bytes.extend(short.to_le_bytes());
    } else {
        bytes.push(tag::WHOLE);
        bytes.extend(n.to_le_bytes());
    }
}

fn put_data(bytes: &mut Vec<u8>, word: &str) -> Option<()> {
    match word.split(':').collect::<Vec<_>>()[..] {
        ["rep", byte, count] => {
            bytes.extend([tag::REPEATED, u8::from_str_radix(byte, 16).ok()?]);
            put_number(bytes, count.parse().ok()?);
        }
        ["gen", seed, count] => {
            bytes.push(tag::GENERATED + (seed.parse::<u64>().ok()? % 96) as u8);
            put_number(bytes, count.parse().ok()?);
        }
        [digits] => {
            let data = from_hex(digits)?;
            match data.len() {
                count @ 0..64 => bytes.push(count as u8),
                count => {
                    bytes.push(tag::LONG);
                    bytes.extend(
                        u16::try_from(count).ok().filter(|count| usize::from(*count) < MOST_HEX)?.to_le_bytes(),
                    );
                }
            }
            bytes.extend(data);
        }
        _ => return None,
    }
    Some(())
}
