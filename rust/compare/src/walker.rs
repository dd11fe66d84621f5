//! Where a walk stands, as bytes: its position, its depth, and where the packets of the five
//! depths end, eight bytes each. A walker that no call left has its depth taken as 4 at most and
//! its ends cut at the packet's end; at the end of an inner packet a walk goes on behind it.

use std::collections::HashSet;

use reference::tag::{bytes_of, containers, Name};
use reference::{big_endian, number, Answer};

use crate::rng::Rng;

/// The bytes of a walker.
pub const BYTES: usize = 8 * (2 + LEVELS);
/// The depths at which a packet may begin.
const LEVELS: usize = 5;
/// Name and length of an item.
const HEAD: usize = 8;

#[derive(Clone, Copy, Debug, PartialEq)]
pub struct Walker {
    at: usize,
    depth: usize,
    ends: [usize; LEVELS],
}

impl Walker {
    /// Before the first item of a packet.
    pub fn opened(packet: &[u8]) -> Walker {
        Walker { at: 0, depth: 0, ends: [packet.len(), 0, 0, 0, 0] }
    }

    /// Anywhere, mostly near the packet.
    pub fn stray(rng: &mut Rng, packet: &[u8]) -> Walker {
        let mut figure = |most: usize| match rng.below(12) {
            0 => rng.next() as usize,
            1 => usize::MAX - rng.below(16),
            _ => rng.within(0, most),
        };
        let most = packet.len() + 4;
        let (at, depth) = (figure(most), figure(5));
        Walker { at, depth, ends: [0; LEVELS].map(|_| figure(most)) }
    }

    pub fn bytes(&self) -> Vec<u8> {
        let figures = [self.at, self.depth].into_iter().chain(self.ends);
        figures.flat_map(|figure| (figure as u64).to_be_bytes()).collect()
    }

    /// A step: what it tells, and where the walk stands then. A list of names that opening refuses
    /// is 43; 43 and 30 leave the walk.
    pub fn step(&mut self, packet: &[u8], list: &[u8]) -> Answer<Vec<u8>> {
        let containers = containers(list)?;
        let (mut at, mut depth) = (self.at, self.depth.min(LEVELS - 1));
        loop {
            let end = self.ends[depth].min(packet.len());
            let left = end.saturating_sub(at);
            if left >= HEAD {
                return self.item(&packet[at..end], at, depth, &containers);
            }
            if depth == 0 {
                (self.at, self.depth) = (at, depth);
                return Ok(told(0, 0, &[0; HEAD], [0, left, 0, 0]));
            }
            (at, depth) = (end, depth - 1);
        }
    }

    /// The item at the front of what is left of its level.
    fn item(
        &mut self,
        left: &[u8],
        at: usize,
        depth: usize,
        containers: &HashSet<Name>,
    ) -> Answer<Vec<u8>> {
        let bits = big_endian(&left[4..HEAD]);
        let (from, length) = (at + HEAD, bytes_of(bits));
        if length > left.len() - HEAD {
            return Err(number::OVERRUN);
        }
        if depth + 1 < LEVELS && containers.iter().any(|name| left[..4] == *name) {
            self.ends[depth + 1] = from + length;
            (self.at, self.depth) = (from, depth + 1);
        } else {
            (self.at, self.depth) = (from + length, depth);
        }
        let unused = (8 - bits as usize % 8) % 8;
        Ok(told(1, depth, &left[..HEAD], [from, length, at, unused]))
    }
}

/// 1 for an item, its depth, name and bits, where its value begins and the value's bytes, where the
/// item begins and the unused bits of its last byte; or zeros, with the bytes of padding in the
/// place of the value's.
fn told(item: u8, depth: usize, head: &[u8], figures: [usize; 4]) -> Vec<u8> {
    let [from, length, start, unused] = figures;
    let mut bytes = vec![item, depth as u8];
    bytes.extend(head);
    bytes.extend((from as u64).to_be_bytes());
    bytes.extend((length as u32).to_be_bytes());
    bytes.extend((start as u64).to_be_bytes());
    bytes.push(unused as u8);
    bytes
}
