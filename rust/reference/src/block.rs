//! Clauses 7.3.1 and 7.4.4 for a whole block: a packet's chunks with their parity, and the missing
//! cells of a block filled in.

use crate::code::{self, Filling, MOST_DATA, PARITY};
use crate::pft::{Chunks, PLACE};
use crate::plan::MOST_FRAGMENTS;
use crate::{number, refuse, Answer};

/// What filling a block comes to.
#[derive(Clone, Copy, Debug, PartialEq)]
pub enum Filled {
    /// Every missing cell is filled in.
    Done,
    /// A chunk has no word of the code that agrees; the missing cells of all chunks are 0.
    Nothing,
    /// A chunk misses more than 48 bytes; nothing is changed.
    NotEnough,
}

/// Writes c chunks of k bytes, the packet and zeros behind it, each followed by its parity, into
/// the first bytes of `out`, and gives their length. The packet takes just c chunks, at least one,
/// and they fit a place. Refusals: 8, ROOM.
pub fn encode(packet: &[u8], k: usize, c: usize, out: &mut [u8]) -> Answer<usize> {
    refuse(k == 0 || k > MOST_DATA, number::SIZE)?;
    refuse(c == 0 || packet.len().div_ceil(k) != c, number::SIZE)?;
    let length = c.saturating_mul(k + PARITY);
    refuse(length > PLACE, number::SIZE)?;
    refuse(out.len() < length, number::ROOM)?;
    let mut block = Vec::new();
    for part in packet.chunks(k) {
        let mut data = part.to_vec();
        data.resize(k, 0);
        block.extend(&data);
        block.extend(code::parity(&data)?);
    }
    out[..length].copy_from_slice(&block);
    Ok(length)
}

/// Fills in the missing cells of the block of f fragments of s bytes: cell q is of fragment q mod
/// f, and there are floor(f s / (k + 48)) chunks. Refusals: 7, 8, ROOM.
pub fn fill(kept: &[bool], f: usize, s: usize, k: usize, block: &mut [u8]) -> Answer<Filled> {
    refuse(f == 0 || f > MOST_FRAGMENTS, number::COUNT)?;
    let all = f.saturating_mul(s);
    refuse(all > PLACE || !Chunks { k, z: 0 }.fit(all), number::SIZE)?;
    let n = k + PARITY;
    let cells = all / n * n;
    refuse(block.len() < cells, number::ROOM)?;
    let is_missing = |q: usize| !kept.get(q % f).copied().unwrap_or(false);
    let missing: Vec<bool> = (0..cells).map(is_missing).collect();
    filled(k, &missing, &mut block[..cells])
}

/// The same for cells that make up whole chunks.
fn filled(k: usize, missing: &[bool], block: &mut [u8]) -> Answer<Filled> {
    let n = k + PARITY;
    let too_few = |gaps: &[bool]| gaps.iter().filter(|gap| **gap).count() > PARITY;
    if missing.chunks(n).any(too_few) {
        return Ok(Filled::NotEnough);
    }
    let mut words = Vec::new();
    for (chunk, gaps) in block.chunks(n).zip(missing.chunks(n)) {
        let Filling::Filled(word) = code::fill(k, chunk, gaps)? else {
            erase(block, missing);
            return Ok(Filled::Nothing);
        };
        words.extend(word);
    }
    block.copy_from_slice(&words);
    Ok(Filled::Done)
}

/// 0 for each missing cell.
fn erase(block: &mut [u8], missing: &[bool]) {
    for (cell, missing) in block.iter_mut().zip(missing) {
        if *missing {
            *cell = 0;
        }
    }
}
