//! The TAG layer: walk_open with walk_step.

use card::{raw, Step, Walk};
use reference::number;
use reference::tag as expected;
use reference::tag::{Name, Repeats, Walked};

use crate::find::note_word;
use crate::rng::Rng;
use crate::tag::{part, place, some_packet, typed_word, word, Part, Style, POOL};
use crate::tally::{hex, number_of, told, Judge, Tally};
use crate::walker::{self, Walker};

/// The walks that show that the word on repeats is for every level.
const INNER: &str = "granted where names repeat in containers alone";
/// The steps that tell a start in the outermost packet from one in the container.
const DEEPEST: &str = "granted that hand out an item at depth 4";
const INNER_UNUSED: &str = "granted that hand out an item of a container with unused bits";
const INNER_EMPTY: &str = "granted that hand out an item of a container with 0 bits";
const INNER_FAR: &str = "granted that hand out an item of a container past byte 65,535";
/// Lengths that a walker has not.
const OTHER_LENGTHS: [usize; 5] = [0, 8, 55, 57, 112];

/// The names of containers: eight at most, and at times more or not four bytes each.
fn container_list(rng: &mut Rng) -> Vec<u8> {
    let count = if rng.chance(95) { rng.within(0, 8) } else { rng.within(9, 12) };
    let mut list: Vec<u8> = (0..count).flat_map(|_| rng.pick(&POOL)).collect();
    if rng.chance(3) {
        list.truncate(list.len().saturating_sub(rng.within(1, 3)));
    }
    list
}

fn names_of(list: &[u8]) -> Vec<Name> {
    list.chunks_exact(4).map(|name| [name[0], name[1], name[2], name[3]]).collect()
}

pub fn walk(rng: &mut Rng, opened: &mut Tally, stepped: &mut Tally) {
    let (list, repeats) = (container_list(rng), word(rng));
    let style = Style::new(rng, names_of(&list), repeats);
    let packet = some_packet(rng, &style);
    let length = if rng.chance(96) { walker::BYTES } else { rng.pick(&OTHER_LENGTHS) };
    let (before, flag) = (rng.bytes(length), rng.flag(repeats == Repeats::Allowed));
    let mut walker = before.clone();
    let number = raw::walk_open(&packet, &list, flag, &mut walker);
    let expected = expected::walk(&list, &packet, repeats);

    let mut judge = Judge::default();
    let due = number_of(&expected);
    let room = if length == walker::BYTES { 0 } else { number::ROOM.into() };
    judge.same("number", number, if due == 0 { room } else { due });
    let opened_at = Walker::opened(&packet).bytes();
    judge.bytes("walker", &walker, if due == 0 && room == 0 { &opened_at } else { &before });
    if list.len() % 4 == 0 {
        judge.same("typed", typed_walk(&list, &packet, repeats), expected.clone().map(handed));
    }
    note_walk(opened, number, &list, &packet);
    opened.count(number, judge, || inputs(&packet, &list, &before) + &format!(" repeats={flag}"));
    if let (0, Ok((items, padding))) = (number, expected) {
        steps(rng, stepped, &packet, &list, &items, padding);
    }
    if rng.chance(60) {
        let stands = Walker::stray(rng, &packet);
        one_step(rng, stepped, &packet, &list, stands, None);
    }
    if rng.chance(10) {
        misfit_step(rng, stepped, &packet, &list);
    }
}

/// Notes what an opening shows of the word on repeats.
fn note_walk(tally: &mut Tally, number: usize, list: &[u8], packet: &[u8]) {
    let forbidden = expected::walk(list, packet, Repeats::Forbidden);
    let outer = expected::items(packet, Repeats::Forbidden);
    tally.note(INNER, number == 0 && forbidden.is_err() && outer.is_ok());
    note_word(tally, number, &forbidden);
}

fn inputs(packet: &[u8], list: &[u8], walker: &[u8]) -> String {
    format!("packet={} names={} walker={}", hex(packet), hex(list), hex(walker))
}

/// What a walk hands out by steps: depth, name, bits and value, start and unused bits of each item,
/// then the padding.
type HandedOut = (Vec<(usize, Name, u32, Part, usize, usize)>, usize);

fn handed((items, padding): (Vec<Walked>, usize)) -> HandedOut {
    let shown = |Walked { depth, item: i }: &Walked| {
        (*depth, i.name, i.bits, part(i.value), i.start, i.unused)
    };
    (items.iter().map(shown).collect(), padding)
}

/// The same by the typed calls.
fn typed_walk(list: &[u8], packet: &[u8], repeats: Repeats) -> Result<HandedOut, u8> {
    let (names, word) = (names_of(list), typed_word(repeats));
    let mut walk = Walk::open(packet, &names, word).map_err(|refused| refused.0)?;
    let mut items = Vec::new();
    loop {
        match walk.step().map_err(|refused| refused.0)? {
            Step::Item { depth, name, bits, value, start, unused } => {
                items.push((depth.into(), name, bits, part(value), start, unused.into()));
            }
            Step::End { padding } => return Ok((items, padding)),
        }
    }
}

/// The steps of a walk that was opened, and two behind its last item.
fn steps(
    rng: &mut Rng,
    tally: &mut Tally,
    packet: &[u8],
    list: &[u8],
    items: &[Walked],
    padding: usize,
) {
    let mut stands = Walker::opened(packet);
    for at in 0..items.len() + 2 {
        let shown = items.get(at).map_or(end(padding), |walked| step(packet, walked));
        stands = one_step(rng, tally, packet, list, stands, Some(shown));
    }
}

/// A step from where a walk stands, and what it tells where that is known from the whole walk.
fn one_step(
    rng: &mut Rng,
    tally: &mut Tally,
    packet: &[u8],
    list: &[u8],
    stands: Walker,
    whole: Option<Vec<u8>>,
) -> Walker {
    let (before, mut walker, mut expected_walker) =
        (rng.room(raw::TOLD_STEP), stands.bytes(), stands);
    let mut after = before.clone();
    let number = raw::walk_step(packet, list, &mut walker, &mut after);
    let expected = expected_walker.step(packet, list);

    let mut judge = Judge::default();
    if before.len() < raw::TOLD_STEP {
        judge.same("number", number, number::ROOM.into());
        judge.bytes("told", &after, &before);
        judge.bytes("walker", &walker, &stands.bytes());
    } else {
        judge.same("number", number, number_of(&expected));
        let shown = expected.as_ref().map_or(before.clone(), |shown| told(&before, shown));
        judge.bytes("told", &after, &shown);
        judge.bytes("walker", &walker, &expected_walker.bytes());
        if let Some(whole) = whole {
            judge.bytes("told by the whole walk", &after, &told(&before, &whole));
            note_step(tally, &whole);
        }
    }
    tally.note_room(number, &before, raw::TOLD_STEP);
    tally.count(number, judge, || inputs(packet, list, &stands.bytes()) + " told=" + &hex(&before));
    expected_walker
}

/// Notes what a step of a walk that was opened has to tell of an item in a container.
fn note_step(tally: &mut Tally, told: &[u8]) {
    let (depth, bits, start, unused) = (told[1], &told[6..10], &told[22..30], told[30]);
    let inner = depth > 0;
    tally.note(DEEPEST, depth == 4);
    tally.note(INNER_UNUSED, inner && unused > 0);
    tally.note(INNER_EMPTY, inner && bits == [0; 4]);
    tally.note(INNER_FAR, inner && start[..6] != [0; 6]);
}

/// A step with other than 56 bytes is refused, and changes nothing.
fn misfit_step(rng: &mut Rng, tally: &mut Tally, packet: &[u8], list: &[u8]) {
    let length = rng.pick(&OTHER_LENGTHS);
    let (before, stood) = (rng.room(raw::TOLD_STEP), rng.bytes(length));
    let (mut after, mut walker) = (before.clone(), stood.clone());
    let number = raw::walk_step(packet, list, &mut walker, &mut after);

    let mut judge = Judge::default();
    judge.same("number", number, number::ROOM.into());
    judge.bytes("told", &after, &before);
    judge.bytes("walker", &walker, &stood);
    tally.count(number, judge, || inputs(packet, list, &stood) + " told=" + &hex(&before));
}

/// 1, depth, name, bits, where the value begins, its bytes; where the item begins, and the unused
/// bits of its last byte.
fn step(packet: &[u8], walked: &Walked) -> Vec<u8> {
    let mut bytes = vec![1, walked.depth as u8];
    bytes.extend(walked.item.name);
    bytes.extend(walked.item.bits.to_be_bytes());
    bytes.extend((place(packet, walked.item.value) as u64).to_be_bytes());
    bytes.extend((walked.item.value.len() as u32).to_be_bytes());
    bytes.extend((walked.item.start as u64).to_be_bytes());
    bytes.push(walked.item.unused as u8);
    bytes
}

/// Zeros, but for the bytes of padding where an item has its value's.
fn end(padding: usize) -> Vec<u8> {
    let mut bytes = vec![0; raw::TOLD_STEP];
    bytes[18..22].copy_from_slice(&(padding as u32).to_be_bytes());
    bytes
}
