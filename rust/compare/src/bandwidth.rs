//! The bandwidth's questions to the console, since no call of the card reads or writes "rbw_": the
//! numbers 60 and 61 are theirs.

use reference::bandwidth::{figure, NAME};
use reference::tag::{Name, DUMMY, POINTER};

use crate::rng::Rng;
use crate::tally::hex;

/// Names of other items, one of which is like the item's own.
const OTHERS: [Name; 3] = [*b"rbw-", *b"abcd", *b"cont"];

/// A question on the bandwidth.
pub fn question(rng: &mut Rng) -> String {
    let (packet, standing) = (hex(&packet(rng)), hex(&packet(rng)));
    match rng.below(4) {
        0 => format!("rbwitem {} {}", float_or_none(rng), rng.pick(&[10, 10, 11, 32, 10, 9, 8, 0])),
        1 => format!("rbwseen {} {packet} {standing}", record(rng)),
        _ => format!("rbw {packet} {standing}{}", rng.pick(&["", " once", " repeat", " repeat"])),
    }
}

/// A few items, and at times up to seven bytes of padding.
fn packet(rng: &mut Rng) -> Vec<u8> {
    let count = rng.pick(&[0, 1, 1, 1, 2, 2, 3, 5]);
    let mut packet: Vec<u8> = (0..count).flat_map(|_| item(rng)).collect();
    let padding = rng.pick(&[0, 0, 0, 1, 7]);
    packet.extend(rng.bytes(padding));
    packet
}

/// An item, often the bandwidth's; at times of wrong bits, and at times a byte short.
fn item(rng: &mut Rng) -> Vec<u8> {
    let (name, bits) = match rng.below(40) {
        0..16 => (NAME, 16),
        16..20 => (NAME, 0),
        20..22 => (NAME, rng.below(40)),
        22..26 => (POINTER, 64),
        26 => (POINTER, rng.within(57, 72)),
        27..33 => (DUMMY, rng.below(40)),
        _ => (rng.pick(&OTHERS), rng.below(40)),
    };
    let mut value = rng.bytes(bits.div_ceil(8));
    if rng.chance(3) {
        value.pop();
    }
    [&name[..], &(bits as u32).to_be_bytes(), &value].concat()
}

/// A float's pattern: for the most part a figure's, else one beside it or any.
fn pattern(rng: &mut Rng) -> u32 {
    let short = rng.short() >> rng.below(16);
    match rng.below(10) {
        0 => figure(short).to_bits() ^ 1 << rng.below(32),
        1 => rng.next() as u32,
        _ => figure(short).to_bits(),
    }
}

fn float_or_none(rng: &mut Rng) -> String {
    if rng.chance(10) {
        "-".to_string()
    } else {
        hex(&pattern(rng).to_be_bytes())
    }
}

/// A record, which is at times none: a float that is no number, or another last byte.
fn record(rng: &mut Rng) -> String {
    let any = if rng.chance(2) { rng.byte() } else { rng.pick(&[0, 1, 1]) };
    let floats: Vec<u8> = (0..3).flat_map(|_| pattern(rng).to_be_bytes()).collect();
    hex(&[&floats[..], &[any]].concat())
}
