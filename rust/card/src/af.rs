//! The AF layer: wrapping a payload, checking a packet.

use crate::{done, long, raw, short, Refused};

/// The bytes of a packet beside its payload.
pub const FRAME: usize = 12;
/// Where a packet's payload begins.
pub const HEADER: usize = 10;

/// What a packet that passes the checks tells.
#[derive(Clone, Copy, Debug, PartialEq, Eq)]
pub struct Checked {
    /// The sender's count.
    pub seq: u16,
    /// Whether it has a CRC, which is right then.
    pub cf: bool,
    /// The minor revision; the major one is 1.
    pub minor: u8,
    /// The payload's bytes.
    pub len: usize,
}

/// Writes the packet of a payload at the front of `out`, with a CRC where `cf` is true, and gives
/// its length. Refused: 22, 1.
///
/// ```
/// use card::af;
/// let mut packet = [0; 32];
/// let length = af::wrap(7, true, b"payload", &mut packet)?;
/// let checked = af::check(&packet[..length])?;
/// assert_eq!((checked.seq, checked.cf), (7, true));
/// assert_eq!(&packet[af::HEADER..][..checked.len], b"payload");
/// # Ok::<(), card::Refused>(())
/// ```
pub fn wrap(seq: u16, cf: bool, payload: &[u8], out: &mut [u8]) -> Result<usize, Refused> {
    done(raw::wrap(seq, cf.into(), payload, out)).map(|()| payload.len() + FRAME)
}

/// Checks a packet. Refused: 20 to 25.
pub fn check(packet: &[u8]) -> Result<Checked, Refused> {
    let mut told = [0; raw::TOLD_CHECK];
    done(raw::check(packet, &mut told))?;
    let len = long(&told, 4) as usize;
    Ok(Checked { seq: short(&told, 0), cf: told[2] != 0, minor: told[3], len })
}
