//! The header of a fragment, read before its datagram is received.

use crate::sender::{pair, Address};
use crate::{done, raw, short, Refused};

/// RSk and RSz, there with FEC.
#[derive(Clone, Copy, Debug, PartialEq, Eq)]
pub struct Chunks {
    /// Bytes of the packet in a chunk.
    pub k: u8,
    /// Zeros behind the packet in the last chunk.
    pub z: u8,
}

/// The fields of a header. `number` is Pseq, the number of the fragment's packet; the payload is
/// the last `plen` bytes of the datagram, from `h` on.
#[derive(Clone, Copy, Debug, PartialEq, Eq)]
pub struct Header {
    pub number: u16,
    pub findex: u16,
    pub fcount: u16,
    pub chunks: Option<Chunks>,
    pub address: Option<Address>,
    pub plen: u16,
    pub h: u8,
}

/// Reads the header of a datagram; `address` is the one that is taken beside none. Refused: 2 to 8,
/// as a receiver refuses the datagram.
///
/// ```
/// use card::{af, header, sender, Settings};
/// let (mut packet, mut fragment) = ([0; 32], [0; 1_400]);
/// let length = af::wrap(1, true, b"payload", &mut packet)?;
/// let sent = sender::fragment(&Settings::HOUSE, 7, &packet[..length], 2, &mut fragment)?;
/// let header = header::parse(None, &fragment[..sent])?;
/// assert_eq!((header.number, header.findex), (7, 2));
/// # Ok::<(), card::Refused>(())
/// ```
pub fn parse(address: Option<Address>, datagram: &[u8]) -> Result<Header, Refused> {
    let mut told = [0; raw::TOLD_PARSE];
    let (addressed, source, dest) = pair(address);
    done(raw::parse(addressed, source, dest, datagram, &mut told))?;
    Ok(Header {
        number: short(&told, 0),
        findex: short(&told, 2),
        fcount: short(&told, 4),
        chunks: (told[6] != 0).then(|| Chunks { k: told[7], z: told[8] }),
        address: (told[9] != 0)
            .then(|| Address { source: short(&told, 10), dest: short(&told, 12) }),
        plen: short(&told, 14),
        h: told[16],
    })
}
