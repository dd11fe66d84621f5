//! The link card in plain Rust, written from the papers alone and apart from the proved one.
//!
//! "Document 01" is the scope, "clause" a clause of ETSI TS 102 821. Nothing here is quick: the
//! CRC goes bit by bit, the field has no table, and missing bytes are found by elimination. It is
//! the other side of a comparison, so it shares no code and no table with the card.

pub mod af;
pub mod bandwidth;
pub mod block;
pub mod code;
pub mod console;
pub mod crc;
pub mod endurance;
pub mod field;
pub mod listing;
pub mod pft;
pub mod plan;
pub mod receiver;
pub mod sender;
pub mod tag;

/// The numbers given back (document 01, "Numbers given back").
pub mod number {
    pub const ROOM: u8 = 1;
    pub const SHORT: u8 = 2;
    pub const SYNC: u8 = 3;
    pub const HCRC: u8 = 4;
    pub const LENGTH: u8 = 5;
    pub const ADDRESS: u8 = 6;
    pub const COUNT: u8 = 7;
    pub const SIZE: u8 = 8;
    pub const MISMATCH: u8 = 9;
    pub const SPOILED: u8 = 10;
    pub const LATE: u8 = 11;
    pub const REPEAT: u8 = 12;
    pub const DAMAGED: u8 = 13;
    pub const STATE: u8 = 14;
    pub const AF_SHORT: u8 = 20;
    pub const AF_SYNC: u8 = 21;
    pub const AF_LENGTH: u8 = 22;
    pub const AF_MAJOR: u8 = 23;
    pub const AF_TYPE: u8 = 24;
    pub const AF_CRC: u8 = 25;
    pub const OVERRUN: u8 = 30;
    pub const TWICE: u8 = 31;
    pub const DEPTH: u8 = 32;
    pub const PTR: u8 = 33;
    pub const ABSENT: u8 = 34;
    pub const WHOLE: u8 = 35;
    pub const SETTINGS: u8 = 40;
    pub const TOOMANY: u8 = 41;
    pub const INDEX: u8 = 42;
    pub const BITS: u8 = 43;
    pub const ZERO: u8 = 44;
}

/// What a call gives: its values, or the number of its refusal.
pub type Answer<T> = Result<T, u8>;

/// Refuses with `number` where `fault` holds, so that checks read in the order of the paper.
pub fn refuse(fault: bool, number: u8) -> Answer<()> {
    if fault {
        Err(number)
    } else {
        Ok(())
    }
}

/// A big-endian number of at most four bytes (document 01: all numbers are big-endian).
pub fn big_endian(bytes: &[u8]) -> u32 {
    bytes.iter().fold(0, |value, byte| value << 8 | u32::from(*byte))
}
