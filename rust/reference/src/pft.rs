//! Clause 7.1: the header of a PFT fragment.

use crate::code::{MOST_DATA, PARITY};
use crate::plan::{header_length, Address, MOST_FRAGMENTS};
use crate::{big_endian, crc, number, refuse, Answer};

/// The bytes of one place of the receiver, which a packet's fragments have to fit (document 01).
pub const PLACE: usize = 12_288;
/// The bits of the field that Plen shares with the flags.
const FEC_BIT: u16 = 0x8000;
const ADDR_BIT: u16 = 0x4000;
const PLEN_BITS: u16 = 0x3FFF;
/// Where the flags stand.
const FLAGS: usize = 10;

/// RSk and RSz, there with FEC.
#[derive(Clone, Copy, Debug, PartialEq)]
pub struct Chunks {
    pub k: usize,
    pub z: usize,
}

/// The fields of a header. `number` is Pseq.
#[derive(Clone, Copy, Debug, PartialEq)]
pub struct Header {
    pub number: u16,
    pub findex: usize,
    pub fcount: usize,
    pub plen: usize,
    pub chunks: Option<Chunks>,
    pub address: Option<Address>,
}

impl Header {
    /// h, with the two bytes of HCRC.
    pub fn length(&self) -> usize {
        header_length(self.chunks.is_some(), self.address.is_some())
    }

    /// The bytes of the header, HCRC last.
    pub fn bytes(&self) -> Vec<u8> {
        let mut bytes = b"PF".to_vec();
        bytes.extend(self.number.to_be_bytes());
        bytes.extend(&(self.findex as u32).to_be_bytes()[1..]);
        bytes.extend(&(self.fcount as u32).to_be_bytes()[1..]);
        bytes.extend((self.flags() | self.plen as u16 & PLEN_BITS).to_be_bytes());
        if let Some(Chunks { k, z }) = self.chunks {
            bytes.extend([k as u8, z as u8]);
        }
        if let Some(Address { source, dest }) = self.address {
            bytes.extend(source.to_be_bytes());
            bytes.extend(dest.to_be_bytes());
        }
        bytes.extend(crc::sent(&bytes).to_be_bytes());
        bytes
    }

    fn flags(&self) -> u16 {
        let fec = if self.chunks.is_some() { FEC_BIT } else { 0 };
        let addr = if self.address.is_some() { ADDR_BIT } else { 0 };
        fec | addr
    }
}

/// The header of a datagram that passes the checks 2 to 8, which are made in that order.
pub fn read(datagram: &[u8], configured: Option<Address>) -> Answer<Header> {
    let h = whole_header(datagram)?;
    refuse(&datagram[..2] != b"PF", number::SYNC)?;
    let (covered, hcrc) = datagram[..h].split_at(h - 2);
    refuse(hcrc != crc::sent(covered).to_be_bytes(), number::HCRC)?;
    let header = fields(datagram);
    refuse(header.plen == 0 || datagram.len() != h + header.plen, number::LENGTH)?;
    let foreign = header.address.is_some() && header.address != configured;
    refuse(foreign, number::ADDRESS)?;
    let count_out = header.fcount == 0 || header.fcount > MOST_FRAGMENTS;
    refuse(count_out || header.findex >= header.fcount, number::COUNT)?;
    check_size(&header)?;
    Ok(header)
}

/// The length of the header that the flags call for; 2 where the datagram is shorter.
fn whole_header(datagram: &[u8]) -> Answer<usize> {
    refuse(datagram.len() < header_length(false, false), number::SHORT)?;
    let flags = flags(datagram);
    let h = header_length(flags & FEC_BIT != 0, flags & ADDR_BIT != 0);
    refuse(datagram.len() < h, number::SHORT)?;
    Ok(h)
}

fn flags(datagram: &[u8]) -> u16 {
    big_endian(&datagram[FLAGS..FLAGS + 2]) as u16
}

/// The fields of a datagram that holds a whole header.
fn fields(datagram: &[u8]) -> Header {
    let flags = flags(datagram);
    let (fec, addr) = (flags & FEC_BIT != 0, flags & ADDR_BIT != 0);
    let optional = &datagram[FLAGS + 2..];
    let transport = &optional[if fec { 2 } else { 0 }..];
    Header {
        number: big_endian(&datagram[2..4]) as u16,
        findex: big_endian(&datagram[4..7]) as usize,
        fcount: big_endian(&datagram[7..10]) as usize,
        plen: usize::from(flags & PLEN_BITS),
        chunks: fec.then(|| Chunks { k: optional[0].into(), z: optional[1].into() }),
        address: addr.then(|| Address {
            source: big_endian(&transport[..2]) as u16,
            dest: big_endian(&transport[2..4]) as u16,
        }),
    }
}

/// 8: the fragments do not fit a place, or with FEC the figures give no chunk.
fn check_size(header: &Header) -> Answer<()> {
    let all = header.fcount * header.plen;
    refuse(all > PLACE, number::SIZE)?;
    match header.chunks {
        Some(chunks) => refuse(!chunks.fit(all), number::SIZE),
        None => Ok(()),
    }
}

impl Chunks {
    /// k from 1 to 207, z below k, and at least one chunk in so many bytes of fragments.
    pub fn fit(&self, all: usize) -> bool {
        let k_right = self.k >= 1 && self.k <= MOST_DATA;
        k_right && self.z < self.k && all >= self.k + PARITY
    }
}
