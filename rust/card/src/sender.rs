//! The sender: planning a cut, telling how many losses it stands, writing one fragment or all
//! fragments of a packet.

pub use crate::endurance::{endure, Endurance};
use crate::{done, raw, short, Refused};

/// The bytes that no packet's fragments exceed.
pub const SENT: usize = 17_408;
/// The most fragments of a packet.
pub const FRAGMENTS: usize = 256;

/// The address of a fragment, or the one that a receiver takes.
#[derive(Clone, Copy, Debug, PartialEq, Eq)]
pub struct Address {
    pub source: u16,
    pub dest: u16,
}

/// By which edition's rule S is worked out, the most payload bytes of a fragment, where m is above
/// 0; at 0 the two are the same. A receiver takes the fragments of either without being told.
///
/// ```
/// use card::{sender, Rule, Settings};
/// let newer = Settings { m: 5, rule: Rule::Newer, ..Settings::HOUSE };
/// let older = Settings { rule: Rule::Older, ..newer };
/// let (few, many) = (sender::plan(&newer, 414)?, sender::plan(&older, 414)?);
/// assert_eq!((few.f, few.s, few.losses), (27, 19, 4));
/// assert_eq!((many.f, many.s, many.losses), (32, 16, 5));
/// # Ok::<(), card::Refused>(())
/// ```
#[derive(Clone, Copy, Debug, PartialEq, Eq)]
pub enum Rule {
    /// Document 000's: S is the smaller of floor(48 c / (m + 1)) and mtu - h. The settings with a
    /// name have this one.
    Older,
    /// Document 001's: S is the smaller of floor(48 c / m) and mtu - h.
    Newer,
}

/// How a sender cuts. `m` is the losses that it is set for, [`Plan::losses`] those that a cut then
/// assures; `mtu` is the most bytes of a fragment, header and all.
#[derive(Clone, Copy, Debug, PartialEq, Eq)]
pub struct Settings {
    pub fec: bool,
    pub m: usize,
    pub mtu: usize,
    pub address: Option<Address>,
    pub rule: Rule,
}

impl Settings {
    /// The house default: any one fragment may be lost.
    ///
    /// ```
    /// let addressed = card::Settings {
    ///     address: Some(card::Address { source: 1, dest: 2 }),
    ///     ..card::Settings::HOUSE
    /// };
    /// ```
    pub const HOUSE: Settings =
        Settings { fec: true, m: 1, mtu: 1_400, address: None, rule: Rule::Older };

    /// The setting for two losses, the house default of old: any two fragments may be lost.
    pub const TWO_LOSSES: Settings =
        Settings { fec: true, m: 2, mtu: 1_400, address: None, rule: Rule::Older };
}

/// The house default.
impl Default for Settings {
    fn default() -> Settings {
        Settings::HOUSE
    }
}

/// The sizes of a cut under their letters in document 01. Without FEC c, k, z and n are 0.
#[derive(Clone, Copy, Debug, PartialEq, Eq)]
pub struct Plan {
    /// Chunks.
    pub c: u16,
    /// Bytes of the packet in a chunk.
    pub k: u16,
    /// Zeros behind the packet in the last chunk.
    pub z: u16,
    /// Bytes of a chunk with its parity.
    pub n: u16,
    /// Bytes of a fragment's header.
    pub h: u16,
    /// S, the most payload bytes that a fragment may have.
    pub most: u16,
    /// L, the bytes that are cut.
    pub total: u16,
    /// Fragments.
    pub f: u16,
    /// Payload bytes of each; without FEC the last may have fewer.
    pub s: u16,
    /// The lost fragments that the cut assures, whichever they are: m, but 4 at m 5 by the newer
    /// rule where c is above 1.
    pub losses: u16,
}

/// How the fragments of a packet stand one behind the other: f of them, each of h + s bytes, and
/// the last one of h + last. None of its calls panics, whatever the figures are:
///
/// ```
/// use card::sender::Split;
/// let none = Split { f: 0, h: 16, s: 5, last: 5 };
/// assert_eq!((none.total(), none.parts(&[0; 40]).count()), (0, 0));
/// let short = Split { f: 3, h: 16, s: 5, last: 5 };
/// assert_eq!((short.total(), short.parts(&[0; 50]).count()), (63, 2));
/// let most = usize::MAX;
/// let wild = Split { f: most, h: most, s: most, last: most };
/// assert_eq!((wild.total(), wild.part(&[0; 50], 1)), (most, None));
/// ```
#[derive(Clone, Copy, Debug, PartialEq, Eq)]
pub struct Split {
    pub f: usize,
    pub h: usize,
    pub s: usize,
    pub last: usize,
}

impl Split {
    /// The bytes of all fragments; of figures that no packet has, at most the greatest number.
    pub fn total(&self) -> usize {
        let Some(before) = self.f.checked_sub(1) else { return 0 };
        let whole = before.saturating_mul(self.h.saturating_add(self.s));
        whole.saturating_add(self.h).saturating_add(self.last)
    }

    /// Fragment `index`, in the bytes that they were written to; none where it is not below f, or
    /// where `out` ends before it does.
    pub fn part<'a>(&self, out: &'a [u8], index: usize) -> Option<&'a [u8]> {
        let behind = self.f.checked_sub(index)?.checked_sub(1)?;
        let from = index.checked_mul(self.h.checked_add(self.s)?)?;
        let payload = if behind == 0 { self.last } else { self.s };
        out.get(from..from.checked_add(self.h)?.checked_add(payload)?)
    }

    /// The fragments in their order, in the bytes that they were written to: all f of them, or
    /// those before the first that does not stand whole in `out`.
    pub fn parts<'a>(&self, out: &'a [u8]) -> Parts<'a> {
        Parts { split: *self, out, next: 0 }
    }
}

/// The fragments of a packet, one after another.
#[derive(Clone, Debug)]
pub struct Parts<'a> {
    split: Split,
    out: &'a [u8],
    next: usize,
}

impl<'a> Iterator for Parts<'a> {
    type Item = &'a [u8];

    fn next(&mut self) -> Option<&'a [u8]> {
        let part = self.split.part(self.out, self.next)?;
        self.next += 1;
        Some(part)
    }
}

/// An address as the library takes it: whether there is one, source and dest.
pub(crate) fn pair(address: Option<Address>) -> (usize, u16, u16) {
    match address {
        Some(Address { source, dest }) => (1, source, dest),
        None => (0, 0, 0),
    }
}

/// A rule as the library takes it: whether it is the newer one.
pub(crate) fn newer(rule: Rule) -> usize {
    match rule {
        Rule::Older => 0,
        Rule::Newer => 1,
    }
}

/// Plans the cut of a packet of l bytes. Refused: 40, 20, 22, 41.
///
/// ```
/// use card::{sender, Settings};
/// let house = sender::plan(&Settings::HOUSE, 8_192)?;
/// assert_eq!((house.f, house.h + house.s, house.losses), (11, 936, 1));
/// let two = sender::plan(&Settings::TWO_LOSSES, 8_192)?;
/// assert_eq!((two.f, two.h + two.s, two.losses), (16, 649, 2));
/// # Ok::<(), card::Refused>(())
/// ```
pub fn plan(settings: &Settings, l: usize) -> Result<Plan, Refused> {
    let mut told = [0; raw::TOLD_PLAN];
    let Settings { fec, m, mtu, address, rule } = *settings;
    let addressed = address.is_some().into();
    done(raw::plan(fec.into(), m, newer(rule), mtu, addressed, l, &mut told))?;
    Ok(Plan {
        c: short(&told, 0),
        k: short(&told, 2),
        z: short(&told, 4),
        n: short(&told, 6),
        h: short(&told, 8),
        most: short(&told, 10),
        total: short(&told, 12),
        f: short(&told, 14),
        s: short(&told, 16),
        losses: short(&told, 18),
    })
}

/// Writes fragment `index` of a packet at the front of `out`, and gives its length. Each call lays
/// the whole packet's chunks; `fragments` does so once for all. Refused: 40, 20 to 25, 41, 42, 1.
pub fn fragment(
    settings: &Settings,
    pseq: u16,
    packet: &[u8],
    index: usize,
    out: &mut [u8],
) -> Result<usize, Refused> {
    let mut told = [0; raw::TOLD_FRAGMENT];
    let Settings { fec, m, mtu, address, rule } = *settings;
    let (addressed, source, dest) = pair(address);
    done(raw::fragment(
        fec.into(),
        m,
        newer(rule),
        mtu,
        addressed,
        source,
        dest,
        pseq,
        packet,
        index,
        &mut told,
        out,
    ))?;
    Ok(short(&told, 0).into())
}

/// Writes all fragments of a packet at the front of `out`, one behind the other; [`SENT`] bytes
/// hold those of every packet. Refused: 40, 20 to 25, 41, 1.
///
/// ```
/// use card::{af, receiver::PACKET, sender, Settings};
/// let (mut packet, mut sent) = ([0; PACKET], [0; sender::SENT]);
/// let length = af::wrap(1, true, b"payload", &mut packet)?;
/// let split = sender::fragments(&Settings::HOUSE, 7, &packet[..length], &mut sent)?;
/// let mut one = [0; 1_400];
/// for (i, part) in split.parts(&sent).enumerate() {
///     let alone = sender::fragment(&Settings::HOUSE, 7, &packet[..length], i, &mut one)?;
///     assert_eq!(part, &one[..alone]);
/// }
/// # Ok::<(), card::Refused>(())
/// ```
pub fn fragments(
    settings: &Settings,
    pseq: u16,
    packet: &[u8],
    out: &mut [u8],
) -> Result<Split, Refused> {
    let mut told = [0; raw::TOLD_FRAGMENTS];
    let Settings { fec, m, mtu, address, rule } = *settings;
    let (addressed, source, dest) = pair(address);
    done(raw::fragments(
        fec.into(),
        m,
        newer(rule),
        mtu,
        addressed,
        source,
        dest,
        pseq,
        packet,
        &mut told,
        out,
    ))?;
    let figure = |at| usize::from(short(&told, at));
    Ok(Split { f: figure(0), h: figure(2), s: figure(4), last: figure(6) })
}
