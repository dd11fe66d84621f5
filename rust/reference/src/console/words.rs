//! The words of a question; nothing where a word is malformed or too large.

use crate::plan::{Address, Rule, Settings};

/// The most bytes of a word in hex, and the most room that can be lent.
const MOST_BYTES: usize = 32_768;
/// The most bytes that can be lent as a table.
pub const MOST_TABLE: usize = 65_536;

/// A decimal number of at most `most`; zeros in front change none.
pub fn decimal(word: &str, most: u64) -> Option<u64> {
    if word.is_empty() || !word.bytes().all(|digit| digit.is_ascii_digit()) {
        return None;
    }
    word.parse().ok().filter(|value| *value <= most)
}

pub fn length(word: &str, most: usize) -> Option<usize> {
    decimal(word, most as u64).map(|value| value as usize)
}

pub fn any_number(word: &str) -> Option<usize> {
    length(word, usize::MAX)
}

pub fn table_length(word: &str) -> Option<usize> {
    length(word, MOST_TABLE)
}

/// A lent buffer of so many bytes.
pub fn buffer(room: &str) -> Option<Vec<u8>> {
    length(room, MOST_BYTES).map(|room| vec![0; room])
}

pub fn element(word: &str) -> Option<u8> {
    decimal(word, u8::MAX.into()).map(|value| value as u8)
}

pub fn short(word: &str) -> Option<u16> {
    decimal(word, u16::MAX.into()).map(|value| value as u16)
}

pub fn flag(word: &str) -> Option<bool> {
    decimal(word, 1).map(|value| value == 1)
}

/// Bytes in lower-case hex, `-` for none.
pub fn bytes(word: &str) -> Option<Vec<u8>> {
    if word == "-" {
        return Some(Vec::new());
    }
    if word.is_empty() || word.len() % 2 != 0 || word.len() / 2 > MOST_BYTES {
        return None;
    }
    let digits: Option<Vec<u8>> = word.bytes().map(hex_digit).collect();
    Some(digits?.chunks(2).map(|pair| pair[0] << 4 | pair[1]).collect())
}

fn hex_digit(letter: u8) -> Option<u8> {
    match letter {
        b'0'..=b'9' => Some(letter - b'0'),
        b'a'..=b'f' => Some(letter - b'a' + 10),
        _ => None,
    }
}

/// An address or configured pair, `-` for none.
pub fn address(word: &str) -> Option<Option<Address>> {
    if word == "-" {
        return Some(None);
    }
    let pair: [u8; 4] = bytes(word)?.try_into().ok()?;
    let source = u16::from_be_bytes([pair[0], pair[1]]);
    let dest = u16::from_be_bytes([pair[2], pair[3]]);
    Some(Some(Address { source, dest }))
}

pub fn settings(fec: &str, m: &str, mtu: &str, addr: &str, rule: Rule) -> Option<Settings> {
    let (fec, address) = (flag(fec)?, address(addr)?);
    Some(Settings { fec, m: any_number(m)?, mtu: any_number(mtu)?, address, rule })
}

/// The positions named, as a mask over so many bytes.
pub fn mask(positions: &str, length: usize) -> Option<Vec<bool>> {
    let mut mask = vec![false; length];
    if positions != "-" {
        for position in positions.split(',') {
            *mask.get_mut(any_number(position)?)? = true;
        }
    }
    Some(mask)
}
