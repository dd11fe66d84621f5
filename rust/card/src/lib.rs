//! The proved link card for Rust: safe calls over the static library libcard.a.
//!
//! Slices go in, typed answers come out. A refusal is [`Refused`] with document 01's number, name
//! and meaning; it leaves all that was lent as it was, and what a call writes stands at the front
//! of its `out`, with the bytes behind it as they were. Nothing here allocates, panics or decides:
//! each function is one call of the library. `raw` has the same calls with bare numbers and a
//! slice for what they tell; crates/card/card.h says what each does, and explains the letters.
//!
//! Two lots of bytes are the receiver's: its record, 1,081 bytes, says what the four places are;
//! the lent bytes, 49,152, are what they keep of the fragments.
#![no_std]

pub mod af;
pub mod block;
mod endurance;
pub mod ffi;
pub mod header;
pub mod raw;
pub mod receiver;
mod refused;
pub mod sender;
pub mod tag;

pub use receiver::{Place, Received, Receiver};
pub use refused::Refused;
pub use sender::{Address, Rule, Settings};
pub use tag::{Repeats, Step, Walk};

/// One more where a call, a number or a size is another than before.
pub const VERSION: usize = 4;
/// One more where a record or lent bytes that were kept mean something else than before.
pub const RECORD_LAYOUT: usize = 1;

/// 0 is done; the library gives no refusal above 255.
fn done(number: usize) -> Result<(), Refused> {
    match number {
        0 => Ok(()),
        refusal => Err(Refused(refusal as u8)),
    }
}

/// The two bytes at `at` of what was told, as a number.
fn short(told: &[u8], at: usize) -> u16 {
    u16::from_be_bytes([told[at], told[at + 1]])
}

/// The four bytes at `at` of what was told, as a number.
fn long(told: &[u8], at: usize) -> u32 {
    u32::from_be_bytes([told[at], told[at + 1], told[at + 2], told[at + 3]])
}

/// The eight bytes at `at` of what was told, as a place in a slice.
fn place(told: &[u8], at: usize) -> usize {
    (u64::from(long(told, at)) << 32 | u64::from(long(told, at + 4))) as usize
}
