//! The record of the four places as bytes: for each place its condition (1), number (2), f (4),
//! FEC (1), k (1), z (1), s (2) and the last fragment's bytes (2), 0 where they are not known, and
//! a flag for each of 256 fragments; behind the four, which place is displaced next (1).

use reference::code::MOST_DATA;
use reference::pft::{Chunks, PLACE};
use reference::plan::MOST_FRAGMENTS;
use reference::receiver::{Condition, Place, Table, PLACES};
use reference::{big_endian, number};

use crate::rng::Rng;

/// The bytes before the flags of a place.
const FIGURES: usize = 14;
/// The bytes of a place.
const HELD: usize = FIGURES + MOST_FRAGMENTS;
/// The bytes of the record.
pub const RECORD: usize = PLACES * HELD + 1;

/// The record of the reference's table.
pub fn bytes_of(table: &Table) -> Vec<u8> {
    let mut bytes: Vec<u8> = table.places.iter().flat_map(place_bytes).collect();
    let turns: Vec<u64> = table.places.iter().flatten().map(|place| place.turn).collect();
    let first = (0..turns.len()).min_by_key(|at| turns[*at]).unwrap_or(0);
    bytes.push(if turns.len() == PLACES { first as u8 } else { 0 });
    bytes
}

fn place_bytes(place: &Option<Place>) -> Vec<u8> {
    let mut bytes = vec![0; HELD];
    let Some(place) = place else {
        return bytes;
    };
    let chunks = place.chunks.unwrap_or(Chunks { k: 0, z: 0 });
    let figure = |size: Option<usize>| (size.unwrap_or(0) as u16).to_be_bytes();
    bytes[0] = condition_byte(place.condition);
    bytes[1..3].copy_from_slice(&place.number.to_be_bytes());
    bytes[3..7].copy_from_slice(&(place.fcount as u32).to_be_bytes());
    bytes[7..10].copy_from_slice(&[place.chunks.is_some().into(), chunks.k as u8, chunks.z as u8]);
    bytes[10..12].copy_from_slice(&figure(place.size));
    bytes[12..14].copy_from_slice(&figure(place.last));
    for (flag, kept) in bytes[FIGURES..].iter_mut().zip(&place.kept) {
        *flag = (*kept).into();
    }
    bytes
}

pub fn condition_byte(condition: Condition) -> u8 {
    match condition {
        Condition::Open => 1,
        Condition::Delivered => 2,
        Condition::Spoiled => 3,
    }
}

/// The reference's table for a record, if there is one that has just these bytes and that the
/// reference takes for one of its own.
pub fn table_of(record: &[u8]) -> Option<Table> {
    let oldest = usize::from(*record.get(PLACES * HELD)?);
    let mut table = Table::fresh();
    for (at, bytes) in record.chunks_exact(HELD).enumerate() {
        let turn = (at + PLACES - oldest.min(PLACES)) % PLACES;
        table.places[at] = place_of(bytes, turn as u64);
    }
    table.opened = PLACES as u64;
    let held = table.places.iter().flatten().count();
    let in_turn = table.places[..held].iter().all(Option::is_some);
    let lent = vec![0; reference::receiver::LENT];
    let own = in_turn && table.query(&lent).is_ok() && bytes_of(&table) == record;
    own.then_some(table)
}

fn place_of(bytes: &[u8], turn: u64) -> Option<Place> {
    let condition = match bytes[0] {
        1 => Condition::Open,
        2 => Condition::Delivered,
        3 => Condition::Spoiled,
        _ => return None,
    };
    let fcount = big_endian(&bytes[3..7]) as usize;
    let known = |at: usize| Some(figure(bytes, at)).filter(|size| *size > 0);
    Some(Place {
        condition,
        number: figure(bytes, 1) as u16,
        fcount,
        chunks: (bytes[7] == 1).then(|| Chunks { k: bytes[8].into(), z: bytes[9].into() }),
        size: known(10),
        last: known(12),
        kept: bytes[FIGURES..].iter().take(fcount).map(|flag| *flag == 1).collect(),
        turn,
    })
}

fn figure(bytes: &[u8], at: usize) -> usize {
    big_endian(&bytes[at..at + 2]) as usize
}

/// What a record is refused for: 1 for its length, 14 for a field out of its range, else 0.
pub fn fault(record: &[u8]) -> usize {
    if record.len() != RECORD {
        return number::ROOM.into();
    }
    let places = record.chunks_exact(HELD);
    let in_range = usize::from(record[RECORD - 1]) < PLACES && places.clone().all(in_range);
    if in_range {
        0
    } else {
        number::STATE.into()
    }
}

/// The ranges of document 01 for one place: a condition of four, flags 0 or 1, at most 256
/// fragments that fit a place; a last one that fits it too and is no longer than the others; and
/// with FEC a chunk's k and z.
fn in_range(place: &[u8]) -> bool {
    let (count, fec) = (big_endian(&place[3..7]) as usize, place[7]);
    let (k, z) = (usize::from(place[8]), usize::from(place[9]));
    let (size, last) = (figure(place, 10), figure(place, 12));
    let flags = fec <= 1 && place[FIGURES..].iter().all(|flag| *flag <= 1);
    let fits = count <= MOST_FRAGMENTS && count * size <= PLACE;
    let last_fits = last <= if size == 0 { PLACE } else { size };
    let code = fec == 0 || (1..=MOST_DATA).contains(&k) && z < k;
    place[0] <= 3 && flags && fits && last_fits && code
}

/// What the query shows of a record in range: condition and number of each place.
pub fn shown(record: &[u8]) -> Vec<u8> {
    let place = |place: &[u8]| match place[0] {
        0 => [0, 0, 0],
        condition => [condition, place[1], place[2]],
    };
    record.chunks_exact(HELD).flat_map(place).collect()
}

/// Changes a field of a record, so that it is out of its range, or still in it, or at its edge.
pub fn change(rng: &mut Rng, record: &mut [u8]) {
    let at = rng.below(PLACES) * HELD;
    let place = &mut record[at..at + HELD];
    match rng.below(12) {
        0 => place[0] = rng.pick(&[0, 1, 2, 3, 3, 4, 255]),
        1 => place[1 + rng.below(2)] ^= rng.byte(),
        2 => {
            let count: u32 = rng.pick(&[0, 1, 2, 10, 255, 256, 257, 65_536, u32::MAX]);
            place[3..7].copy_from_slice(&count.to_be_bytes());
        }
        3 => place[7] = rng.pick(&[0, 1, 2, 255]),
        4 => place[8] = rng.pick(&[0, 1, 100, 207, 208, 255]),
        5 => place[9] = rng.pick(&[0, 1, place[8].saturating_sub(1), place[8], 255]),
        6 => place[10..12].copy_from_slice(&size(rng).to_be_bytes()),
        7 => place[12..14].copy_from_slice(&size(rng).to_be_bytes()),
        8 => place[FIGURES + rng.below(MOST_FRAGMENTS)] = rng.pick(&[0, 1, 2, 255]),
        9 => place[FIGURES + rng.below(8)] ^= 1,
        10 => record[RECORD - 1] = rng.pick(&[0, 1, 2, 3, 4, 255]),
        _ => rng.damage(record),
    }
}

fn size(rng: &mut Rng) -> u16 {
    rng.pick(&[0, 1, 48, 49, 100, 1_000, 12_288, 12_289, u16::MAX])
}
