//! The TAG layer: item, and packets of items.

use card::{raw, tag};
use reference::tag as expected;
use reference::tag::{Name, Repeats, DUMMY, POINTER};

use crate::rng::Rng;
use crate::tally::{hex, number_of, Judge, Tally};

/// The depth at which an item is refused.
const TOO_DEEP: usize = 5;
/// The least bytes of a long value: where the item behind it begins takes over two bytes to tell.
const LONG: usize = 1 << 16;
/// Names that come again and again, so that they are found, stand twice and are containers.
pub const POOL: [Name; 10] = [
    POINTER,
    DUMMY,
    *b"fio_",
    *b"cont",
    *b"abcd",
    *b"abce",
    *b"bcde",
    *b"\0\0\0\0",
    *b"zzzz",
    *b"_oif",
];

pub fn name(rng: &mut Rng) -> Name {
    if rng.chance(75) {
        rng.pick(&POOL)
    } else {
        (rng.next() as u32).to_be_bytes()
    }
}

pub fn item(rng: &mut Rng, tally: &mut Tally) {
    let (name, length) = (name(rng), rng.length(9_000));
    let unused = rng.below(8);
    let mut bits = (length * 8).saturating_sub(unused) as u32;
    if name == POINTER && rng.chance(80) {
        bits = 64;
    }
    let bytes = match rng.below(20) {
        0 => bits.div_ceil(8) as usize + rng.within(1, 3),
        1 => (bits.div_ceil(8) as usize).saturating_sub(1),
        2 if rng.chance(20) => {
            bits = rng.next() as u32;
            length
        }
        _ => bits.div_ceil(8) as usize,
    };
    let (value, before) = (rng.bytes(bytes), rng.room(bytes + 8));
    let (mut out, mut typed_out, mut expected_out) =
        (before.clone(), before.clone(), before.clone());
    let number = raw::item(u32::from_be_bytes(name), bits, &value, &mut out);
    let typed = tag::item(name, bits, &value, &mut typed_out);
    let expected = expected::write(name, bits, &value, &mut expected_out);

    let mut judge = Judge::default();
    judge.same("number", number, number_of(&expected));
    judge.bytes("out", &out, &expected_out);
    judge.same("typed", typed.map_err(|refused| refused.0), expected);
    judge.bytes("typed out", &typed_out, &expected_out);
    tally.count(number, judge, || {
        format!("name={} bits={bits} value={} out={}", hex(&name), hex(&value), hex(&before))
    });
}

/// The word on repeats, one as often as the other.
pub fn word(rng: &mut Rng) -> Repeats {
    rng.pick(&[Repeats::Forbidden, Repeats::Allowed])
}

/// The word for the typed calls.
pub fn typed_word(repeats: Repeats) -> card::Repeats {
    match repeats {
        Repeats::Forbidden => card::Repeats::Forbidden,
        Repeats::Allowed => card::Repeats::Allowed,
    }
}

/// How packets are made up: which names are containers, the few names that come again on a level if
/// any do, how often an item has something wrong, and how many items stand on a level.
pub struct Style {
    containers: Vec<Name>,
    few: Vec<Name>,
    slips: usize,
    most: usize,
}

impl Style {
    /// Names repeat for the most part where they may, and at times where they may not; among them
    /// often those that have rules of their own.
    pub fn new(rng: &mut Rng, containers: Vec<Name>, repeats: Repeats) -> Style {
        let slips = if rng.chance(45) { 12 } else { 0 };
        let often = if repeats == Repeats::Allowed { 70 } else { 10 };
        let (names, usual) = if rng.chance(often) { (rng.within(1, 4), 9) } else { (0, 5) };
        let ruled = [POINTER, DUMMY];
        let mut one = || if rng.chance(25) { rng.pick(&ruled) } else { rng.pick(&POOL) };
        let few = (0..names).map(|_| one()).collect();
        let most = if rng.chance(2) { 120 } else { usual };
        Style { containers, few, slips, most }
    }

    /// A run of items with any padding.
    fn packet(&self, rng: &mut Rng, depth: usize) -> Vec<u8> {
        let (mut packet, mut names) = (Vec::new(), Vec::new());
        let most = if depth == 0 { self.most } else { self.most.min(4) };
        for _ in 0..rng.within(0, most) {
            let name = self.name(rng);
            let again = name != DUMMY && names.contains(&name);
            if !again || !self.few.is_empty() || rng.chance(2 * self.slips) {
                names.push(name);
                packet.extend(self.item(rng, depth, name));
            }
        }
        packet.extend(padding(rng));
        packet
    }

    /// One of the few names, or any where there are none; and often a container's.
    fn name(&self, rng: &mut Rng) -> Name {
        if !self.containers.is_empty() && rng.chance(35) {
            rng.pick(&self.containers)
        } else if !self.few.is_empty() {
            rng.pick(&self.few)
        } else {
            name(rng)
        }
    }

    fn item(&self, rng: &mut Rng, depth: usize, name: Name) -> Vec<u8> {
        let contains = self.containers.contains(&name);
        let value = self.value(rng, depth, name, contains);
        let mut bits = value.len() as u32 * 8;
        if !contains && name != POINTER && bits > 0 {
            bits -= rng.below(8) as u32;
        }
        if rng.chance(self.slips) {
            bits = slipped(rng, bits);
        }
        [&name[..], &bits.to_be_bytes(), &value].concat()
    }

    /// The value of an item; that of a container is a packet again.
    fn value(&self, rng: &mut Rng, depth: usize, name: Name, contains: bool) -> Vec<u8> {
        if name == POINTER {
            return rng.bytes(8);
        }
        if !contains {
            let long = rng.below(1_000) == 0;
            let length = if long { LONG + rng.below(4_000) } else { rng.length(300) };
            return rng.bytes(length);
        }
        let deep = depth + 1 < TOO_DEEP || rng.chance(4 * self.slips) && depth < TOO_DEEP;
        if deep {
            self.packet(rng, depth + 1)
        } else {
            padding(rng)
        }
    }
}

/// Up to seven bytes.
fn padding(rng: &mut Rng) -> Vec<u8> {
    let length = rng.pick(&[0, 0, 0, 1, 2, 7]);
    rng.bytes(length)
}

/// Other bits than the value has.
fn slipped(rng: &mut Rng, bits: u32) -> u32 {
    match rng.below(4) {
        0 => bits.saturating_sub(rng.within(1, 7) as u32),
        1 => bits + rng.within(1, 64) as u32,
        2 => rng.next() as u32,
        _ => bits ^ 1 << rng.below(12),
    }
}

/// A packet made up in that style, and at times damaged or cut.
pub fn some_packet(rng: &mut Rng, style: &Style) -> Vec<u8> {
    let mut packet = style.packet(rng, 0);
    if style.slips > 0 && rng.chance(20) {
        rng.damage(&mut packet);
    }
    if style.slips > 0 && rng.chance(10) {
        packet.truncate(rng.within(0, packet.len()));
    }
    packet
}

/// Where a part of a packet stands in memory, and its bytes: a copy of the part stands elsewhere.
pub type Part = (*const u8, usize);

pub fn part(value: &[u8]) -> Part {
    (value.as_ptr(), value.len())
}

/// Where a part of a packet begins in it.
pub fn place(packet: &[u8], part: &[u8]) -> usize {
    part.as_ptr() as usize - packet.as_ptr() as usize
}
