//! Document 02, Item 10: the bandwidth that item "rbw_" reports, by the bits of a float.
//!
//! A figure is n / 256, n from 0 to 65,535. Whether a float is one, and which float that is, is
//! worked out in whole numbers from sign, exponent and fraction, so that nothing is rounded.

use crate::tag::{self, Name, Repeats};
use crate::{refuse, Answer};

/// Numbers of this layer, which no call of the card gives: an item of another length,
/// a float that is no figure.
pub const WIDTH: u8 = 60;
pub const FIGURE: u8 = 61;
pub const NAME: Name = *b"rbw_";
/// The bits of an item that has a figure; one without has none.
const BITS: u32 = 16;
/// The bits of a float's fraction, below those of its exponent.
const FRACTION: u32 = 23;
/// The exponent, as it is stored, of 1/256 = 2^-8; that of 2^0 is 127.
const LEAST: u32 = 127 - 8;
/// The binary digits of n behind its first, at the most.
const MOST_BEHIND: u32 = 15;

/// The float n / 256. A float stores its exponent and the digits behind its first one.
pub fn figure(n: u16) -> f32 {
    if n == 0 {
        return 0.0;
    }
    let behind = n.ilog2();
    let fraction = (u32::from(n) - (1 << behind)) << (FRACTION - behind);
    f32::from_bits(((LEAST + behind) << FRACTION) + fraction)
}

/// The n of a figure; nothing where the float is none: of sign minus, between two figures, under
/// 1/256 and not zero, or from 256 on, where the infinite and those that are no number stand too.
pub fn units(float: f32) -> Option<u16> {
    let pattern = float.to_bits();
    if pattern == 0 {
        return Some(0);
    }
    // A sign of minus would stand above the exponent, so it makes this too great.
    let behind = (pattern >> FRACTION).checked_sub(LEAST)?;
    if behind > MOST_BEHIND {
        return None;
    }
    let digits = (1 << FRACTION) + pattern % (1 << FRACTION);
    let unit = 1 << (FRACTION - behind);
    (digits % unit == 0).then_some((digits / unit) as u16)
}

/// The figure of the first "rbw_" in the packet, else in the standing packet; nothing where that
/// item says that none is available. Refusals: as of finding it, then 60.
pub fn read(packet: &[u8], standing: &[u8], repeats: Repeats) -> Answer<Option<f32>> {
    let item = tag::find(NAME, packet, standing, repeats)?.item;
    refuse(item.bits != BITS && item.bits != 0, WIDTH)?;
    Ok(match item.value {
        [whole, parts] => Some(figure(u16::from_be_bytes([*whole, *parts]))),
        _ => None,
    })
}

/// Writes the item of a figure, or of none, into the first bytes of `out` and gives its length.
/// Refusals: 61, ROOM.
pub fn write(float: Option<f32>, out: &mut [u8]) -> Answer<usize> {
    let Some(float) = float else {
        return tag::write(NAME, 0, &[], out);
    };
    let n = units(float).ok_or(FIGURE)?;
    tag::write(NAME, BITS, &n.to_be_bytes(), out)
}

/// What the monitor shows: the last figure, the widest and the narrowest so far, and whether any
/// has come, without which the three say nothing.
#[derive(Clone, Copy, Debug, Default, PartialEq)]
pub struct Record {
    pub last: f32,
    pub widest: f32,
    pub narrowest: f32,
    pub any: bool,
}

impl Record {
    /// The record after a reading; one without a figure and a refused one leave it as it stood.
    pub fn after(self, reading: Answer<Option<f32>>) -> Record {
        let Ok(Some(last)) = reading else {
            return self;
        };
        let wider = !self.any || self.widest < last;
        let narrower = !self.any || last < self.narrowest;
        Record {
            last,
            widest: if wider { last } else { self.widest },
            narrowest: if narrower { last } else { self.narrowest },
            any: true,
        }
    }
}
