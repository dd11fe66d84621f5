//! The TAG layer: find and nth, and with find the items of a packet in their order.

use card::{raw, tag, Refused};
use reference::tag as expected;
use reference::tag::{Found, Item, Name, Repeats, DUMMY};
use reference::{number, Answer};

use crate::rng::Rng;
use crate::tag::{name, part, place, some_packet, typed_word, word, Style};
use crate::tally::{due, hex, number_of, told, Judge, Tally};

/// The calls that show what the word on repeats is for.
const REPEATED: &str = "granted that give 31 where repeats are forbidden";
/// Those that show that 31 comes first, and that 33 stays without it.
const POINTER_AGAIN: &str = "that give 33, and 31 where repeats are forbidden";
/// The calls that choose between items, of the packet and of the standing packet.
const FIRST: &str = "granted that show the first of several";
const FIRST_STANDING: &str = "granted that show the first of several in the standing packet";
/// The occurrences that find does not show.
const LATER: &str = "granted that show a later occurrence than the first";
/// The same where only filler may repeat.
const LATER_FILLER: &str = "granted that show a later \"*dmy\" where repeats are forbidden";
/// The occurrences beyond the last.
const BEYOND: &str = "that give 34 though the packet has the name";
/// The starts that tell the standing packet from the packet, and those that take over two bytes.
const BEGUN_STANDING: &str = "granted that show an item behind the first of the standing packet";
const BEGUN_FAR: &str = "granted that show an item which begins past byte 65,535";
/// The items whose last byte has unused bits, and those that have no last byte.
const UNUSED: &str = "granted that show an item with unused bits";
const EMPTY: &str = "granted that show an item of 0 bits";

/// A name that is mostly one of the packets'.
fn wanted(rng: &mut Rng, packets: &[&[u8]]) -> Name {
    let whole = packets.iter().flat_map(|packet| expected::items(packet, Repeats::Allowed));
    let there: Vec<Name> = whole.flat_map(|(items, _)| items).map(|item| item.name).collect();
    if !there.is_empty() && rng.chance(90) {
        rng.pick(&there)
    } else {
        name(rng)
    }
}

/// Notes what a call shows of the word on repeats: the number that it gave, and the answer that is
/// due where they are forbidden.
pub fn note_word<T>(tally: &mut Tally, number: usize, forbidden: &Answer<T>) {
    let twice = number_of(forbidden) == number::TWICE.into();
    tally.note(REPEATED, number == 0 && twice);
    tally.note(POINTER_AGAIN, number == number::PTR.into() && twice);
}

/// Notes a finding that chooses between items of one name, which is not filler.
fn note_first(tally: &mut Tally, number: usize, name: Name, packets: [&[u8]; 2]) {
    let [here, standing] = packets
        .map(|packet| [0, 1].map(|at| expected::nth(name, at, packet, Repeats::Allowed).is_ok()));
    let granted = number == 0 && name != DUMMY;
    tally.note(FIRST, granted && here[1]);
    tally.note(FIRST_STANDING, granted && !here[0] && standing[1]);
}

/// Notes where the item that a call shows begins, and what its last byte is like.
fn note_begun(tally: &mut Tally, number: usize, due: &Answer<Found>) {
    let granted = |met: fn(&Found) -> bool| number == 0 && due.as_ref().is_ok_and(met);
    tally.note(BEGUN_FAR, granted(|found| found.item.start > 65_535));
    tally.note(UNUSED, granted(|found| found.item.unused > 0));
    tally.note(EMPTY, granted(|found| found.item.bits == 0));
}

/// The items of a packet as the typed call gives them, or the number with which it is refused.
fn in_order(packet: &[u8], repeats: Repeats) -> Answer<Vec<Item<'_>>> {
    let items = tag::items(packet, typed_word(repeats)).map_err(|refused| refused.0)?;
    Ok(items.map(as_read).collect())
}

/// An item of the typed call as the reference has them.
fn as_read(item: tag::Item<'_>) -> Item<'_> {
    let tag::Item { name, bits, value, start, unused } = item;
    Item { name, bits, value, start, unused: unused.into() }
}

/// A finding over a packet and a standing packet: the number, what was lent for what it tells,
/// before and after, and what the typed call gave.
struct Finding<'a> {
    packets: [&'a [u8]; 2],
    number: usize,
    before: &'a [u8],
    after: &'a [u8],
    typed: Result<tag::Found<'a>, Refused>,
}

impl Finding<'_> {
    fn judged(&self, expected: &Answer<Found>) -> Judge {
        let mut judge = Judge::default();
        let due = due(expected, self.before, raw::TOLD_FIND);
        judge.same("number", self.number, number_of(&due));
        let line = due.map_or(self.before.to_vec(), |found| told(self.before, &self.shown(found)));
        judge.bytes("told", self.after, &line);
        let typed =
            self.typed.map(|t| (t.standing, t.bits, part(t.value), t.start, t.unused.into()));
        let expected = expected.map(|Found { standing, item: i }| {
            (standing, i.bits, part(i.value), i.start, i.unused)
        });
        judge.same("typed", typed.map_err(|refused| refused.0), expected);
        judge
    }

    /// Which packet holds the item, its bits, where its value begins, the value's bytes; where the
    /// item begins, and the unused bits of its last byte.
    fn shown(&self, found: &Found) -> Vec<u8> {
        let holder = self.packets[usize::from(found.standing)];
        let mut bytes = vec![found.standing.into()];
        bytes.extend(found.item.bits.to_be_bytes());
        bytes.extend((place(holder, found.item.value) as u64).to_be_bytes());
        bytes.extend((found.item.value.len() as u32).to_be_bytes());
        bytes.extend((found.item.start as u64).to_be_bytes());
        bytes.push(found.item.unused as u8);
        bytes
    }
}

pub fn find(rng: &mut Rng, tally: &mut Tally) {
    let repeats = word(rng);
    let style = Style::new(rng, Vec::new(), repeats);
    let (packet, standing) = (some_packet(rng, &style), some_packet(rng, &style));
    let (name, before) = (wanted(rng, &[&packet, &standing]), rng.room(raw::TOLD_FIND));
    let (flag, mut after) = (rng.flag(repeats == Repeats::Allowed), before.clone());
    let number = raw::find(&packet, &standing, u32::from_be_bytes(name), flag, &mut after);
    let typed = tag::find(&packet, &standing, name, typed_word(repeats));
    let expected = expected::find(name, &packet, &standing, repeats);

    let packets = [&packet[..], &standing];
    let finding = Finding { packets, number, before: &before, after: &after, typed };
    let mut judge = finding.judged(&expected);
    let items = expected::items(&packet, repeats).map(|(items, _)| items);
    judge.same("items", in_order(&packet, repeats), items);
    note_first(tally, number, name, packets);
    note_begun(tally, number, &expected);
    let begun = expected.is_ok_and(|found| found.standing && found.item.start > 0);
    tally.note(BEGUN_STANDING, number == 0 && begun);
    tally.note_room(number, &before, raw::TOLD_FIND);
    note_word(tally, number, &expected::find(name, &packet, &standing, Repeats::Forbidden));
    tally.count(number, judge, || {
        let packets = format!("packet={} standing={}", hex(&packet), hex(&standing));
        format!("{packets} name={} repeats={flag} told={}", hex(&name), hex(&before))
    });
}

/// The number of an occurrence, of which there are so many: mostly one of those, or few beyond
/// them, and at times one that would be one of them in fewer bits.
fn occurrence(rng: &mut Rng, count: usize) -> usize {
    let there = rng.below(count.max(1));
    match rng.below(20) {
        0..15 => there,
        15..18 => count + rng.below(4),
        18 => there + rng.pick(&[1 << 8, 1 << 16, 1 << 32, 1 << 63]),
        _ => usize::MAX - rng.below(2),
    }
}

pub fn nth(rng: &mut Rng, tally: &mut Tally) {
    let repeats = word(rng);
    let style = Style::new(rng, Vec::new(), repeats);
    let packet = some_packet(rng, &style);
    let (name, before) = (wanted(rng, &[&packet]), rng.room(raw::TOLD_FIND));
    let items = expected::items(&packet, Repeats::Allowed).map_or(Vec::new(), |(items, _)| items);
    let count = items.iter().filter(|item| item.name == name).count();
    let (at, flag) = (occurrence(rng, count), rng.flag(repeats == Repeats::Allowed));
    let mut after = before.clone();
    let number = raw::nth(&packet, u32::from_be_bytes(name), at, flag, &mut after);
    let typed = tag::nth(&packet, name, at, typed_word(repeats));
    let expected = expected::nth(name, at, &packet, repeats);

    let expected = expected.map(|item| Found { standing: false, item });
    let finding =
        Finding { packets: [&packet, &[]], number, before: &before, after: &after, typed };
    let judge = finding.judged(&expected);
    note_begun(tally, number, &expected);
    tally.note_room(number, &before, raw::TOLD_FIND);
    let later = number == 0 && at > 0;
    tally.note(LATER, later && name != DUMMY);
    tally.note(LATER_FILLER, later && name == DUMMY && repeats == Repeats::Forbidden);
    tally.note(BEYOND, number == number::ABSENT.into() && count > 0);
    note_word(tally, number, &expected::nth(name, at, &packet, Repeats::Forbidden));
    tally.count(number, judge, || {
        let call = format!("packet={} name={} number={at}", hex(&packet), hex(&name));
        format!("{call} repeats={flag} told={}", hex(&before))
    });
}
