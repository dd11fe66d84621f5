//! Clause 5: TAG items, packets of items, and containers.

use std::collections::HashSet;

use crate::{big_endian, number, refuse, Answer};

pub type Name = [u8; 4];

/// Filler; the only name that may always occur again on a level (document 01, "TAG layer").
pub const DUMMY: Name = *b"*dmy";
/// Protocol type and revision, exactly 64 bits.
pub const POINTER: Name = *b"*ptr";
const POINTER_BITS: u32 = 64;
/// Name and length of an item; what remains below that is padding.
const HEAD: usize = 8;
/// The deepest level on which an item may stand.
const DEEPEST: usize = 4;
/// The most container names.
const MOST_CONTAINERS: usize = 8;

/// What the caller says of other names that occur again (document 02, Item 1).
#[derive(Clone, Copy, Debug, PartialEq)]
pub enum Repeats {
    Forbidden,
    Allowed,
}

/// An item, its value shown as a part of the packet; and, by document 02, Item 11, the byte of the
/// lent packet at which its name begins, and the bits that its last byte has beyond the value's.
#[derive(Clone, Copy, Debug, PartialEq)]
pub struct Item<'a> {
    pub name: Name,
    pub bits: u32,
    pub value: &'a [u8],
    pub start: usize,
    pub unused: usize,
}

/// An item of a nested walk, with the level it stands on.
#[derive(Clone, Copy, Debug, PartialEq)]
pub struct Walked<'a> {
    pub depth: usize,
    pub item: Item<'a>,
}

/// An item that was found, and whether the standing packet holds it, in which it starts then.
#[derive(Clone, Copy, Debug, PartialEq)]
pub struct Found<'a> {
    pub standing: bool,
    pub item: Item<'a>,
}

/// The bytes of a value of so many bits.
pub fn bytes_of(bits: u32) -> usize {
    bits.div_ceil(8) as usize
}

/// The first item of what is left of a packet, and what is left behind it; nothing where 7 or
/// fewer bytes remain. `start` is the byte at which these begin. An item that passes the end is 30.
fn next(rest: &[u8], start: usize) -> Answer<Option<(Item<'_>, &[u8])>> {
    if rest.len() < HEAD {
        return Ok(None);
    }
    let (head, behind) = rest.split_at(HEAD);
    let bits = big_endian(&head[4..]);
    let length = bytes_of(bits);
    refuse(length > behind.len(), number::OVERRUN)?;
    let (value, left) = behind.split_at(length);
    let name = [head[0], head[1], head[2], head[3]];
    let unused = 8 * length - bits as usize;
    Ok(Some((Item { name, bits, value, start, unused }, left)))
}

/// What an item may be refused for behind 30 on every level: 31 where repeats are forbidden, 33.
/// `before` are the names that have stood on its level.
fn check_item(item: &Item, before: &mut HashSet<Name>, repeats: Repeats) -> Answer<()> {
    let new = before.insert(item.name);
    let forbidden = repeats == Repeats::Forbidden && item.name != DUMMY;
    refuse(!new && forbidden, number::TWICE)?;
    refuse(item.name == POINTER && item.bits != POINTER_BITS, number::PTR)
}

/// All items of a packet, and the count of its padding bytes; the leftmost item at fault decides.
pub fn items(packet: &[u8], repeats: Repeats) -> Answer<(Vec<Item<'_>>, usize)> {
    let mut items = Vec::new();
    let mut names = HashSet::new();
    let mut rest = packet;
    while let Some((item, left)) = next(rest, packet.len() - rest.len())? {
        check_item(&item, &mut names, repeats)?;
        items.push(item);
        rest = left;
    }
    Ok((items, rest.len()))
}

/// The first item of that name in the packet, else in the standing packet. Both are checked whole
/// first, the packet before the standing one; a name in neither is 34.
pub fn find<'a>(
    name: Name,
    packet: &'a [u8],
    standing: &'a [u8],
    repeats: Repeats,
) -> Answer<Found<'a>> {
    let first = items(packet, repeats)?.0.into_iter().map(|item| Found { standing: false, item });
    let second = items(standing, repeats)?.0.into_iter().map(|item| Found { standing: true, item });
    first.chain(second).find(|found| found.item.name == name).ok_or(number::ABSENT)
}

/// The occurrence of a given number, counted from 0, of that name in the packet alone, which is
/// checked whole first; one beyond the last is 34.
pub fn nth(name: Name, occurrence: usize, packet: &[u8], repeats: Repeats) -> Answer<Item<'_>> {
    let (items, _) = items(packet, repeats)?;
    let named: Vec<Item> = items.into_iter().filter(|item| item.name == name).collect();
    named.get(occurrence).copied().ok_or(number::ABSENT)
}

/// The names in a list of containers, four bytes a name; over 8 of them or bytes left over are 43.
pub fn containers(list: &[u8]) -> Answer<HashSet<Name>> {
    let names = list.chunks_exact(4);
    let left_over = !names.remainder().is_empty();
    refuse(left_over || names.len() > MOST_CONTAINERS, number::BITS)?;
    Ok(names.map(|name| [name[0], name[1], name[2], name[3]]).collect())
}

/// All items of a packet and, behind each container, those of its value; and the count of padding
/// bytes of the outer packet. What is said of repeats holds for each level by itself; starts count
/// in the outer packet on every level.
pub fn walk<'a>(
    list: &[u8],
    packet: &'a [u8],
    repeats: Repeats,
) -> Answer<(Vec<Walked<'a>>, usize)> {
    let mut walk = Walk { containers: containers(list)?, repeats, walked: Vec::new() };
    let padding = walk.packet(packet, 0, 0)?;
    Ok((walk.walked, padding))
}

/// A walk on its way: the container names, what is said of repeats, and the items handed out.
struct Walk<'a> {
    containers: HashSet<Name>,
    repeats: Repeats,
    walked: Vec<Walked<'a>>,
}

impl<'a> Walk<'a> {
    /// Walks the items of a packet on one level, which begins at byte `begin` of the outer packet,
    /// and gives the count of its padding bytes.
    fn packet(&mut self, packet: &'a [u8], begin: usize, depth: usize) -> Answer<usize> {
        let mut names = HashSet::new();
        let mut rest = packet;
        while let Some((item, left)) = next(rest, begin + packet.len() - rest.len())? {
            check_item(&item, &mut names, self.repeats)?;
            self.item(&item, depth)?;
            rest = left;
        }
        Ok(rest.len())
    }

    /// Hands out an item and walks the value of a container; refusals behind 33: 35, 32.
    fn item(&mut self, item: &Item<'a>, depth: usize) -> Answer<()> {
        let contains = self.containers.contains(&item.name);
        refuse(contains && item.bits % 8 != 0, number::WHOLE)?;
        refuse(depth > DEEPEST, number::DEPTH)?;
        self.walked.push(Walked { depth, item: *item });
        if contains {
            self.packet(item.value, item.start + HEAD, depth + 1)?;
        }
        Ok(())
    }
}

/// Writes an item into the first bytes of `out`, unused low bits as zeros, and gives its length.
/// Refusals: 43, 33, ROOM.
pub fn write(name: Name, bits: u32, value: &[u8], out: &mut [u8]) -> Answer<usize> {
    refuse(value.len() != bytes_of(bits), number::BITS)?;
    refuse(name == POINTER && bits != POINTER_BITS, number::PTR)?;
    let length = HEAD + value.len();
    refuse(out.len() < length, number::ROOM)?;
    out[..4].copy_from_slice(&name);
    out[4..HEAD].copy_from_slice(&bits.to_be_bytes());
    out[HEAD..length].copy_from_slice(value);
    if bits % 8 != 0 {
        out[length - 1] &= 0xFF << (8 - bits % 8);
    }
    Ok(length)
}
