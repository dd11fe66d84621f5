//! The code's block calls, for those who cut and join themselves.

use crate::{done, raw, Refused};

/// The parity bytes of a chunk.
pub const PARITY: usize = 48;

/// What filling a block comes to.
#[derive(Clone, Copy, Debug, PartialEq, Eq)]
pub enum Filled {
    /// Each missing cell is filled in.
    Done,
    /// Number 256: no word of the code agrees with the cells kept; 0 stands in each missing cell.
    Nothing,
    /// Number 257: a chunk misses more than 48 bytes, and nothing is changed.
    NotEnough,
}

/// Writes the block of a packet at the front of `out`, c chunks of k bytes each followed by its
/// parity, and gives its length. Refused: 8, 1.
///
/// ```
/// use card::block::{encode, fill, Filled};
/// let (packet, mut block) = ([7; 415], [0; 3 * (139 + 48)]);
/// encode(&packet, 139, 3, &mut block)?;
/// let (sent, mut kept) = (block, [1; 12]);
/// kept[1] = 0; // of 12 fragments of 47 bytes the second was lost
/// (0..block.len()).filter(|cell| cell % 12 == 1).for_each(|cell| block[cell] = 0);
/// assert_eq!(fill(&kept, 12, 47, 139, &mut block)?, Filled::Done);
/// assert_eq!(block, sent);
/// # Ok::<(), card::Refused>(())
/// ```
pub fn encode(packet: &[u8], k: usize, c: usize, out: &mut [u8]) -> Result<usize, Refused> {
    done(raw::encode(packet, k, c, out)).map(|()| c * (k + PARITY))
}

/// Fills in the missing cells of a block: cell q is of fragment q mod f, and fragment i is kept
/// where `kept[i]` is there and not 0. Refused: 7, 8, 1.
pub fn fill(
    kept: &[u8],
    f: usize,
    s: usize,
    k: usize,
    block: &mut [u8],
) -> Result<Filled, Refused> {
    match raw::fill(kept, f, s, k, block) {
        256 => Ok(Filled::Nothing),
        257 => Ok(Filled::NotEnough),
        number => done(number).map(|()| Filled::Done),
    }
}
