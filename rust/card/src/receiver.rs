//! The receiver: the four places.

use crate::sender::{pair, Address};
use crate::{done, raw, short, Refused};

/// The bytes of the record of the places.
pub const RECORD: usize = 1_081;
/// The bytes that the places keep fragments in.
pub const LENT: usize = 49_152;
/// The bytes that a packet handed out may take.
pub const PACKET: usize = 8_192;

/// Four places for packets in assembly.
///
/// It owns the record, which is small, and borrows the bytes of the places, which are not: so the
/// caller says where 49,152 bytes stand (a static, a box, a stack), and they are never moved.
#[derive(Debug)]
pub struct Receiver<'a> {
    record: [u8; RECORD],
    lent: &'a mut [u8; LENT],
}

/// What became of a fragment that was kept. `displaced` is the number of a packet that lost its
/// place before it was formed.
#[derive(Clone, Copy, Debug, PartialEq, Eq)]
pub enum Received {
    /// More fragments are needed.
    Waits { displaced: Option<u16> },
    /// A packet stands in the first `length` bytes of `out`; `missing` of its fragments are not held.
    Delivered { length: usize, missing: usize, displaced: Option<u16> },
    /// Number 13: no packet agrees with the fragments kept, and the place is spoiled.
    Damaged { displaced: Option<u16> },
}

/// A place, and the number of its packet.
#[derive(Clone, Copy, Debug, PartialEq, Eq)]
pub enum Place {
    Free,
    Open(u16),
    Delivered(u16),
    Spoiled(u16),
}

/// The number 13, which is told as an answer: the fragment is kept.
const DAMAGED: usize = 13;

impl<'a> Receiver<'a> {
    /// A receiver whose places are empty. The bytes lent may be any.
    pub fn new(lent: &'a mut [u8; LENT]) -> Receiver<'a> {
        Receiver { record: [0; RECORD], lent }
    }

    /// A receiver that goes on where another one was: its record, and the bytes as it left them. A
    /// record that is none is refused with 14 by each call.
    pub fn resume(record: [u8; RECORD], lent: &'a mut [u8; LENT]) -> Receiver<'a> {
        Receiver { record, lent }
    }

    /// The record, for a receiver that goes on later.
    pub fn record(&self) -> &[u8; RECORD] {
        &self.record
    }

    /// Receives a datagram; `address` is the one that is taken beside none. A packet is handed out
    /// at the front of `out`, which has at least 8,192 bytes. Refused: 14, 1 to 12. 2 to 12 are
    /// ordinary on a line: go on with the next datagram; 1 and 14 are the caller's own fault.
    ///
    /// ```
    /// use card::receiver::{Receiver, LENT, PACKET};
    /// let (mut lent, mut out) = ([0; LENT], [0; PACKET]);
    /// let mut receiver = Receiver::new(&mut lent);
    /// let noise = receiver.receive(None, b"noise", &mut out);
    /// assert_eq!(noise, Err(card::Refused::SHORT));
    /// ```
    pub fn receive(
        &mut self,
        address: Option<Address>,
        datagram: &[u8],
        out: &mut [u8],
    ) -> Result<Received, Refused> {
        let mut told = [0; raw::TOLD_RECEIVE];
        let (addressed, source, dest) = pair(address);
        let (record, lent) = (&mut self.record, &mut self.lent[..]);
        let number = raw::receive(addressed, source, dest, record, lent, datagram, &mut told, out);
        let displaced = (told[5] != 0).then(|| short(&told, 6));
        if number == DAMAGED {
            return Ok(Received::Damaged { displaced });
        }
        done(number)?;
        if told[0] == 0 {
            return Ok(Received::Waits { displaced });
        }
        let (length, missing) = (short(&told, 1).into(), short(&told, 3).into());
        Ok(Received::Delivered { length, missing, displaced })
    }

    /// Shows the four places. Refused: 14.
    pub fn query(&self) -> Result<[Place; 4], Refused> {
        let mut told = [0; raw::TOLD_QUERY];
        done(raw::query(&self.record, &self.lent[..], &mut told))?;
        Ok([0, 3, 6, 9].map(|at| shown(told[at], short(&told, at + 1))))
    }

    /// Empties the four places; the bytes lent stay. Refused: 14.
    pub fn clear(&mut self) -> Result<(), Refused> {
        done(raw::clear(&mut self.record, &self.lent[..]))
    }
}

/// A place by the number of its condition.
fn shown(condition: u8, number: u16) -> Place {
    match condition {
        0 => Place::Free,
        1 => Place::Open(number),
        2 => Place::Delivered(number),
        _ => Place::Spoiled(number),
    }
}
