//! The AF layer: wrap, check.

use card::{af, raw};
use reference::af::{check as expected_check, wrap as expected_wrap, Header, LEAST, MOST};
use reference::crc;

use crate::rng::Rng;
use crate::tally::{due, hex, number_of, told, Judge, Tally};

pub fn wrap(rng: &mut Rng, tally: &mut Tally) {
    let (seq, yes, length) = (rng.short(), rng.chance(50), rng.length(MOST + 200));
    let length = if rng.chance(3) { MOST - LEAST + rng.below(3) } else { length };
    let (cf, payload, before) = (rng.flag(yes), rng.bytes(length), rng.room(length + LEAST));
    let (mut out, mut typed_out, mut expected_out) =
        (before.clone(), before.clone(), before.clone());
    let number = raw::wrap(seq, cf, &payload, &mut out);
    let typed = af::wrap(seq, yes, &payload, &mut typed_out);
    let expected = expected_wrap(seq, yes, &payload, &mut expected_out);

    let mut judge = Judge::default();
    judge.same("number", number, number_of(&expected));
    judge.bytes("out", &out, &expected_out);
    judge.same("typed", typed.map_err(|refused| refused.0), expected);
    judge.bytes("typed out", &typed_out, &expected_out);
    tally.count(number, judge, || {
        format!("seq={seq} cf={cf} payload={} out={}", hex(&payload), hex(&before))
    });
}

/// A packet of l bytes that passes the checks, with any minor revision.
pub fn packet(rng: &mut Rng, l: usize) -> Vec<u8> {
    let (mut packet, cf, seq) = (vec![0; l], rng.chance(60), rng.short());
    let payload = rng.bytes(l - LEAST);
    expected_wrap(seq, cf, &payload, &mut packet).expect("there is room");
    packet[8] |= rng.pick(&[0, 0, 1, 15]);
    seal(&mut packet);
    packet
}

/// Writes the CRC that the header calls for.
fn seal(packet: &mut [u8]) {
    let at = packet.len() - 2;
    let sum = if packet[8] & 0x80 != 0 { crc::sent(&packet[..at]) } else { 0 };
    packet[at..].copy_from_slice(&sum.to_be_bytes());
}

/// A packet with one thing or another wrong, or with nothing wrong at times.
pub fn wrong_packet(rng: &mut Rng, l: usize) -> Vec<u8> {
    let mut packet = packet(rng, l);
    match rng.below(9) {
        0 => packet.truncate(rng.below(LEAST)),
        1 => packet[rng.below(2)] ^= 1 << rng.below(8),
        2 => packet[2 + rng.below(4)] ^= 1 << rng.below(8),
        3 => packet.truncate(rng.within(LEAST, packet.len())),
        4 => packet.extend(vec![0; rng.within(1, 3)]),
        5 => packet[8] ^= 0x10 << rng.below(3),
        6 => packet[9] ^= 1 << rng.below(8),
        7 => rng.damage(&mut packet[l - 2..]),
        _ => rng.damage(&mut packet),
    }
    if packet.len() >= LEAST && rng.chance(30) {
        seal(&mut packet);
    }
    packet
}

/// A packet over 8,192 bytes that has nothing else wrong.
fn long_packet(rng: &mut Rng) -> Vec<u8> {
    let length = MOST - LEAST + rng.within(1, 100);
    let payload = rng.bytes(length);
    let mut packet = [&b"AF"[..], &(payload.len() as u32).to_be_bytes()].concat();
    packet.extend([0, 0, 0x10, b'T']);
    packet.extend(&payload);
    packet.extend([0, 0]);
    packet
}

pub fn check(rng: &mut Rng, tally: &mut Tally) {
    let l = LEAST + rng.length(MOST - LEAST);
    let packet = match rng.below(100) {
        0..45 => packet(rng, l),
        45..97 => wrong_packet(rng, l),
        97..99 => rng.bytes(l),
        _ => long_packet(rng),
    };
    let before = rng.room(raw::TOLD_CHECK);
    let mut after = before.clone();
    let number = raw::check(&packet, &mut after);
    let typed = af::check(&packet).map_err(|refused| refused.0);
    let expected = expected_check(&packet);

    let mut judge = Judge::default();
    let due = due(&expected, &before, raw::TOLD_CHECK);
    judge.same("number", number, number_of(&due));
    let line = due.map_or(before.clone(), |header| told(&before, &bytes(header)));
    judge.bytes("told", &after, &line);
    let typed = typed.map(|t| Header { seq: t.seq, cf: t.cf, minor: t.minor, len: t.len });
    judge.same("typed", typed, expected);
    tally.count(number, judge, || format!("packet={} told={}", hex(&packet), hex(&before)));
}

/// SEQ, CF, the minor revision, LEN.
fn bytes(header: &Header) -> Vec<u8> {
    let mut bytes = header.seq.to_be_bytes().to_vec();
    bytes.extend([header.cf.into(), header.minor]);
    bytes.extend((header.len as u32).to_be_bytes());
    bytes
}
