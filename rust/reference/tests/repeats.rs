//! Document 02, Item 1, "Repeated names", on every packet of up to four of these items.

use reference::number;
use reference::tag::{find, items, nth, walk, Item, Repeats, Walked};

/// Two names that may repeat where the caller says so, filler, which always may, and "*ptr" with
/// 64 bits and with 63.
const PARTS: [&[u8]; 5] = [
    b"abc_\0\0\0\x0C\xAB\xCF",
    b"bcd_\0\0\0\0",
    b"*dmy\0\0\0\x08!",
    b"*ptr\0\0\0\x40AAAA\0\0\0\0",
    BAD_POINTER,
];
const BAD_POINTER: &[u8] = b"*ptr\0\0\0\x3FAAAA\0\0\0\0";
const WORDS: [Repeats; 2] = [Repeats::Forbidden, Repeats::Allowed];

/// Every row of up to four parts.
fn rows() -> Vec<Vec<&'static [u8]>> {
    let mut rows = vec![vec![]];
    for length in 1..=4 {
        let shorter: Vec<_> = rows.iter().filter(|row| row.len() + 1 == length).cloned().collect();
        rows.extend(shorter.iter().flat_map(|row| PARTS.map(|part| [&row[..], &[part]].concat())));
    }
    rows
}

/// The number with which a row is refused: 31 before 33, of the leftmost part at fault.
fn fault(row: &[&[u8]], repeats: Repeats) -> Option<u8> {
    row.iter().enumerate().find_map(|(at, part)| {
        let again = row[..at].iter().any(|before| before[..4] == part[..4]);
        let twice = again && !part.starts_with(b"*dmy") && repeats == Repeats::Forbidden;
        let pointer = (*part == BAD_POINTER).then_some(number::PTR);
        if twice {
            Some(number::TWICE)
        } else {
            pointer
        }
    })
}

/// A part as an item that starts there; its value is equal to the one in a packet, though not the
/// same bytes.
fn item(part: &[u8], start: usize) -> Item<'_> {
    let (name, bits) = (part[..4].try_into().unwrap(), u32::from(part[7]));
    Item { name, bits, value: &part[8..], start, unused: (8 - part[7] % 8) as usize % 8 }
}

/// The parts of a row as items, each where those before it end.
fn items_of<'a>(row: &[&'a [u8]]) -> Vec<Item<'a>> {
    (0..row.len()).map(|at| item(row[at], row[..at].concat().len())).collect()
}

#[test]
fn there_are_so_many_rows() {
    assert_eq!(rows().len(), 1 + 5 + 25 + 125 + 625);
}

#[test]
fn only_31_goes_where_repeats_are_allowed() {
    for (row, repeats) in rows().iter().flat_map(|row| WORDS.map(|word| (row, word))) {
        let (packet, parts) = (row.concat(), items_of(row));
        let due = fault(row, repeats).map_or(Ok((parts, 0)), Err);
        assert_eq!(items(&packet, repeats), due);
    }
}

#[test]
fn an_item_that_passes_the_end_is_30_with_either_word() {
    let long = b"abc_\0\0\0\x0C\xAB";
    for (row, repeats) in rows().iter().flat_map(|row| WORDS.map(|word| (row, word))) {
        let packet = [&row.concat(), &long[..]].concat();
        let due = Err(fault(row, repeats).unwrap_or(number::OVERRUN));
        assert_eq!(items(&packet, repeats), due);
        assert_eq!(nth(*b"abc_", 0, &packet, repeats).map(|_| ()), due.map(|_| ()));
    }
}

#[test]
fn occurrences_are_counted_from_0_over_the_packet() {
    for (row, repeats) in rows().iter().flat_map(|row| WORDS.map(|word| (row, word))) {
        let packet = row.concat();
        for Item { name, .. } in items_of(&PARTS) {
            let items = items_of(row).into_iter();
            let named: Vec<_> = items.filter(|item| item.name == name).collect();
            for number in [0, 1, 2, 3, 4, 1 << 32, usize::MAX] {
                let there = named.get(number).copied().ok_or(number::ABSENT);
                let due = fault(row, repeats).map_or(there, Err);
                assert_eq!(nth(name, number, &packet, repeats), due);
            }
        }
    }
}

/// The standing packet is looked at where the packet has not the name, and checked in any case.
#[test]
fn finding_shows_the_first() {
    let first = b"abc_\0\0\0\x08!abc_\0\0\0\x08?";
    let (packet, standing) = (&b"bcd_\0\0\0\0bcd_\0\0\0\x08."[..], &first[..]);
    let found = |name, packet, standing| {
        let found = find(name, packet, standing, Repeats::Allowed);
        found.map(|found| (found.standing, found.item.value))
    };
    assert_eq!(found(*b"abc_", standing, packet), Ok((false, &b"!"[..])));
    assert_eq!(found(*b"abc_", packet, standing), Ok((true, &b"!"[..])));
    assert_eq!(found(*b"bcd_", packet, standing), Ok((false, &b""[..])));
    assert_eq!(found(*b"bcd_", packet, &first[..17]), Err(number::OVERRUN));
    assert_eq!(found(*b"cde_", packet, standing), Err(number::ABSENT));
    for (packet, standing) in [(packet, &b""[..]), (b"", standing)] {
        let once = find(*b"cde_", packet, standing, Repeats::Forbidden);
        assert_eq!(once, Err(number::TWICE));
    }
}

/// One word for all levels; a name that stands on two levels repeats on neither.
#[test]
fn a_walk_takes_repeats_on_every_level() {
    let inner = b"abc_\0\0\0\x08!abc_\0\0\0\x08?";
    let outer = [b"fio_\0\0\0\x90", &inner[..], b"abc_\0\0\0\0"].concat();
    let shown = |repeats| {
        let shown = |walked: &Walked| (walked.depth, walked.item.bits);
        walk(b"fio_", &outer, repeats).map(|(items, _)| items.iter().map(shown).collect::<Vec<_>>())
    };
    assert_eq!(shown(Repeats::Forbidden), Err(number::TWICE));
    assert_eq!(shown(Repeats::Allowed), Ok(vec![(0, 144), (1, 8), (1, 8), (0, 0)]));
    let apart = [b"fio_\0\0\0\x48", &inner[..9], b"abc_\0\0\0\0"].concat();
    for repeats in WORDS {
        assert_eq!(walk(b"fio_", &apart, repeats).map(|(items, _)| items.len()), Ok(3));
    }
}
