//! Clause 6: AF packets.

use crate::{big_endian, crc, number, refuse, Answer};

/// The shortest packet: ten bytes of header and two of CRC.
pub const LEAST: usize = 12;
/// The longest packet (document 01, "Bounds").
pub const MOST: usize = 8_192;
/// The header's bytes: "AF", LEN, SEQ, AR, PT.
const HEADER: usize = 10;

/// What the checks tell of a packet that passes them.
#[derive(Debug, PartialEq)]
pub struct Header {
    pub seq: u16,
    pub cf: bool,
    pub minor: u8,
    pub len: usize,
}

/// The AF checks, 20 to 25 in that order.
pub fn check(packet: &[u8]) -> Answer<Header> {
    refuse(packet.len() < LEAST, number::AF_SHORT)?;
    refuse(&packet[..2] != b"AF", number::AF_SYNC)?;
    let len = big_endian(&packet[2..6]) as usize;
    refuse(packet.len() - LEAST != len || packet.len() > MOST, number::AF_LENGTH)?;
    let (cf, major, minor) = revision(packet[8]);
    refuse(major != 1, number::AF_MAJOR)?;
    refuse(packet[9] != b'T', number::AF_TYPE)?;
    refuse(!crc_is_right(packet, cf), number::AF_CRC)?;
    Ok(Header { seq: big_endian(&packet[6..8]) as u16, cf, minor, len })
}

/// AR: top bit CF, three bits major, four bits minor.
fn revision(ar: u8) -> (bool, u8, u8) {
    (ar >> 7 == 1, ar >> 4 & 7, ar & 15)
}

/// CF 1: the CRC over header and payload. CF 0: the field is 0000.
fn crc_is_right(packet: &[u8], cf: bool) -> bool {
    let (covered, field) = packet.split_at(packet.len() - 2);
    let right = if cf { crc::sent(covered) } else { 0 };
    field == right.to_be_bytes()
}

/// The payload of a packet that passes the checks.
pub fn payload(packet: &[u8]) -> &[u8] {
    &packet[HEADER..packet.len() - 2]
}

/// Writes the packet of a payload, revision 1.0, into the first bytes of `out`, and gives its
/// length. Over 8,180 bytes it is 22, then ROOM.
pub fn wrap(seq: u16, cf: bool, payload: &[u8], out: &mut [u8]) -> Answer<usize> {
    refuse(payload.len() > MOST - LEAST, number::AF_LENGTH)?;
    let length = payload.len() + LEAST;
    refuse(out.len() < length, number::ROOM)?;
    let mut packet = b"AF".to_vec();
    packet.extend((payload.len() as u32).to_be_bytes());
    packet.extend(seq.to_be_bytes());
    packet.push(if cf { 0x90 } else { 0x10 });
    packet.push(b'T');
    packet.extend(payload);
    let crc = if cf { crc::sent(&packet) } else { 0 };
    packet.extend(crc.to_be_bytes());
    out[..length].copy_from_slice(&packet);
    Ok(length)
}
