//! Words of a line, and what one word can mean.

use crate::names::{Asked, Name};
use crate::numbers::{MAJOR, MINOR};

/// The most words a readable line has: `enq`, three words and 20 names.
const MOST: usize = 24;

/// The words of a line; `None` when there are more than any readable line has.
pub struct Words<'a> {
    words: [&'a [u8]; MOST],
    count: usize,
}

impl<'a> Words<'a> {
    pub fn of(line: &'a [u8]) -> Option<Words<'a>> {
        let mut found = Words { words: [b""; MOST], count: 0 };
        for word in line.split(|byte| *byte == b' ') {
            if found.count == MOST {
                return None;
            }
            found.words[found.count] = word;
            found.count += 1;
        }
        Some(found)
    }

    pub fn all(&self) -> &[&'a [u8]] {
        &self.words[..self.count]
    }
}

/// "*number*: 1 to 10 decimal digits (leading zeros allowed), value 0 to 4294967295"
pub fn number(word: &[u8]) -> Option<u32> {
    if word.is_empty() || word.len() > 10 || !word.iter().all(|byte| byte.is_ascii_digit()) {
        return None;
    }
    let value = word.iter().fold(0u64, |sum, byte| sum * 10 + (*byte - b'0') as u64);
    if value <= u32::max_value() as u64 {
        Some(value as u32)
    } else {
        None
    }
}

/// A number up to a bound.
pub fn number_to(word: &[u8], most: u32) -> Option<u32> {
    number(word).filter(|value| *value <= most)
}

/// "*DPMOD*: a number up to 2147483647, or `-` and a number up to 2147483648.  No `+`."
pub fn signed(word: &[u8]) -> Option<i32> {
    if word.first() == Some(&b'-') {
        number_to(&word[1..], 2_147_483_648).map(|value| (-(value as i64)) as i32)
    } else {
        number_to(word, 2_147_483_647).map(|value| value as i32)
    }
}

/// A number, or `-` for none.
pub fn number_or_none(word: &[u8]) -> Option<Option<u32>> {
    if word == b"-" {
        Some(None)
    } else {
        number(word).map(Some)
    }
}

fn hex_digit(byte: u8) -> Option<u8> {
    match byte {
        b'0'..=b'9' => Some(byte - b'0'),
        b'a'..=b'f' => Some(byte - b'a' + 10),
        b'A'..=b'F' => Some(byte - b'A' + 10),
        _ => None,
    }
}

/// "*hex*: digits `0-9a-fA-F`, two per byte."  Bytes that have no room are read and
/// left out; the number of bytes comes back.
fn hex(digits: &[u8], room: &mut [u8]) -> Option<usize> {
    if digits.len() % 2 != 0 {
        return None;
    }
    for (i, pair) in digits.chunks(2).enumerate() {
        let byte = hex_digit(pair[0])? * 16 + hex_digit(pair[1])?;
        if i < room.len() {
            room[i] = byte;
        }
    }
    Some(digits.len() / 2)
}

/// Exactly 16 hex digits.
pub fn major(word: &[u8]) -> Option<[u8; MAJOR]> {
    let mut bytes = [0; MAJOR];
    if word.len() == 2 * MAJOR && hex(word, &mut bytes).is_some() {
        Some(bytes)
    } else {
        None
    }
}

/// Exactly 88 hex digits.
pub fn minor(word: &[u8]) -> Option<[u8; MINOR]> {
    let mut bytes = [0; MINOR];
    if word.len() == 2 * MINOR && hex(word, &mut bytes).is_some() {
        Some(bytes)
    } else {
        None
    }
}

/// The most bytes that a poke of the name area has.
pub const MOST_BYTES: usize = 300;

/// So many bytes at the front of the room.
#[derive(Clone, Copy, Debug)]
pub struct Bytes {
    room: [u8; MOST_BYTES],
    count: usize,
}

impl Bytes {
    pub fn all(&self) -> &[u8] {
        &self.room[..self.count]
    }
}

/// 1 to 300 bytes in hex.
pub fn bytes(word: &[u8]) -> Option<Bytes> {
    let mut room = [0; MOST_BYTES];
    let count = hex(word, &mut room)?;
    if 1 <= count && count <= MOST_BYTES {
        Some(Bytes { room, count })
    } else {
        None
    }
}

/// "16 hex digits (major), `.`, 0 to 600 hex digits, an even number (minor bytes), then
/// optionally `/` and a number up to 300, the length."
pub fn name(word: &[u8]) -> Option<Name> {
    if word.len() <= 2 * MAJOR || word[2 * MAJOR] != b'.' {
        return None;
    }
    let major = major(&word[..2 * MAJOR])?;
    let rest = &word[2 * MAJOR + 1..];
    let slash = rest.iter().position(|byte| *byte == b'/');
    let digits = &rest[..slash.unwrap_or(rest.len())];
    if digits.len() > 600 {
        return None;
    }
    let mut minor = [0; MINOR];
    let given = hex(digits, &mut minor)? as u32;
    let length = match slash {
        Some(place) => number_to(&rest[place + 1..], 300)?,
        None => given,
    };
    // "bytes beyond the length are ignored, missing ones are zero"
    for byte in minor.iter_mut().skip(length as usize) {
        *byte = 0;
    }
    Some(Name { major, length, minor })
}

/// "In `enq` a name begins with `S:` (shared) or `E:` (exclusive)"
pub fn asked(word: &[u8]) -> Option<Asked> {
    let exclusive = if word.starts_with(b"S:") {
        false
    } else if word.starts_with(b"E:") {
        true
    } else {
        return None;
    };
    Some(Asked { exclusive, name: name(&word[2..])? })
}
