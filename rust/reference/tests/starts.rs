//! Document 02, Item 11, "Tell where an item began".

use reference::number;
use reference::tag::{find, items, nth, walk, Item, Repeats};

/// The containers of `nested`.
const NAMES: &[u8] = b"fio_cont";

/// An item of so many bits whose value is ones, so that unused bits are not taken for zeros.
fn item(name: &[u8; 4], bits: u32) -> Vec<u8> {
    let value = vec![0xFF; bits.div_ceil(8) as usize];
    [&name[..], &bits.to_be_bytes(), &value].concat()
}

/// An item whose value is a packet.
fn container(name: &[u8; 4], packet: &[u8]) -> Vec<u8> {
    [&name[..], &(8 * packet.len() as u32).to_be_bytes(), packet].concat()
}

/// Containers in containers, with an item before each and padding behind it, and one at depth 4.
fn nested() -> Vec<u8> {
    let mut packet = item(b"deep", 3);
    for (name, bits) in [(b"fio_", 0), (b"cont", 9), (b"fio_", 17), (b"cont", 8)] {
        let inner = [container(name, &packet), b"pad".to_vec()].concat();
        packet = [item(b"abc_", bits), inner].concat();
    }
    packet
}

/// The bytes that a display marks for an item.
fn marked<'a>(packet: &'a [u8], item: &Item) -> &'a [u8] {
    &packet[item.start..item.start + 8 + item.value.len()]
}

/// Where a part of a packet begins in it, told by the memory that it stands in.
fn place(packet: &[u8], part: &[u8]) -> usize {
    part.as_ptr() as usize - packet.as_ptr() as usize
}

#[test]
fn so_many_bits_leave_so_many_unused() {
    let due = [0, 7, 6, 5, 4, 3, 2, 1, 0, 7, 6, 5, 4, 3, 2, 1, 0, 7];
    for (bits, unused) in (0..).zip(due) {
        let packet = item(b"abc_", bits);
        let (items, padding) = items(&packet, Repeats::Forbidden).unwrap();
        assert_eq!((items.len(), padding), (1, 0));
        assert_eq!((items[0].start, items[0].bits, items[0].unused), (0, bits, unused));
    }
}

#[test]
fn items_start_where_the_one_before_ends() {
    let parts = [item(b"*ptr", 64), item(b"abc_", 12), item(b"bcd_", 0), item(b"cde_", 1)];
    let packet = [parts.concat(), b"padding".to_vec()].concat();
    let (items, padding) = items(&packet, Repeats::Forbidden).unwrap();
    let starts: Vec<_> = items.iter().map(|item| (item.start, item.unused)).collect();
    assert_eq!((starts, padding), (vec![(0, 0), (16, 4), (26, 0), (34, 7)], 7));
    for (part, item) in parts.iter().zip(&items) {
        assert_eq!(marked(&packet, item), part);
    }
}

/// "The lent packet that holds it (finding also says which)."
#[test]
fn a_found_item_starts_in_the_packet_that_holds_it() {
    let packet = [item(b"*dmy", 24), item(b"abc_", 4), item(b"abc_", 12)].concat();
    let standing = [item(b"*dmy", 80), item(b"bcd_", 7), item(b"abc_", 16)].concat();
    let found = |name, packet, standing| {
        let found = find(name, packet, standing, Repeats::Allowed);
        found.map(|found| (found.standing, found.item.start, found.item.unused))
    };
    assert_eq!(found(*b"abc_", &packet, &standing), Ok((false, 11, 4)));
    assert_eq!(found(*b"bcd_", &packet, &standing), Ok((true, 18, 1)));
    assert_eq!(found(*b"abc_", &standing, &packet), Ok((false, 27, 0)));
    assert_eq!(found(*b"abc_", &[], &packet), Ok((true, 11, 4)));
    assert_eq!(found(*b"cde_", &packet, &standing), Err(number::ABSENT));
    let second = nth(*b"abc_", 1, &packet, Repeats::Allowed).unwrap();
    assert_eq!((second.start, second.unused), (20, 4));
    assert_eq!(marked(&packet, &second), &packet[20..]);
}

/// "Nested walks give the start within the outermost packet."
#[test]
fn a_nested_item_starts_in_the_outermost_packet() {
    let packet = nested();
    let (walked, padding) = walk(NAMES, &packet, Repeats::Forbidden).unwrap();
    let shown = |at: usize| (walked[at].depth, walked[at].item.start, walked[at].item.unused);
    let due = [
        (0, 0, 0),
        (0, 9, 0),
        (1, 17, 7),
        (1, 28, 0),
        (2, 36, 7),
        (2, 46, 0),
        (3, 54, 0),
        (3, 62, 0),
        (4, 70, 5),
    ];
    assert_eq!((0..walked.len()).map(shown).collect::<Vec<_>>(), due);
    assert_eq!(padding, 3);
    for step in &walked {
        assert_eq!(step.item.start + 8, place(&packet, step.item.value));
        assert_eq!(marked(&packet, &step.item)[..4], step.item.name);
    }
}

/// A walk without containers is the packet's own items.
#[test]
fn a_walk_of_one_level_tells_what_items_tell() {
    let packet = nested();
    let (walked, padding) = walk(&[], &packet, Repeats::Forbidden).unwrap();
    let outer = walked.into_iter().map(|step| step.item).collect();
    assert_eq!(items(&packet, Repeats::Forbidden), Ok((outer, padding)));
}
