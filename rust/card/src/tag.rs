//! The TAG layer: writing an item, finding one by its name, the first or the occurrence of a given
//! number, going through the items of a packet and of the containers in it. An item that is handed
//! out tells where it began, so that nobody has to search for its bytes again.

use crate::{done, long, place, raw, Refused};

/// Any four bytes.
pub type Name = [u8; 4];

/// The bytes of an item before its value.
pub const HEAD: usize = 8;
/// The bytes that say where a walk stands.
const WALKER: usize = 56;

/// Whether a name may stand twice on one level of a packet; "*dmy" always may. The word holds for
/// both packets of a finding, and for every level of a walk.
///
/// ```
/// use card::{tag, Refused, Repeats};
/// let packet = *b"demo\0\0\0\x08!demo\0\0\0\x08?";
/// assert_eq!(tag::find(&packet, &[], *b"demo", Repeats::Allowed)?.value, b"!");
/// assert_eq!(tag::find(&packet, &[], *b"demo", Repeats::Forbidden), Err(Refused::TWICE));
/// # Ok::<(), card::Refused>(())
/// ```
#[derive(Clone, Copy, Debug, PartialEq, Eq)]
pub enum Repeats {
    /// It may not: a packet where one does is refused with 31.
    Forbidden,
    /// It may, and 31 is never given. All other checks are made.
    Allowed,
}

/// An item that was found; its value is a part of the packet that holds it.
///
/// A display marks the item's raw bytes there, its name and length and the value behind them:
///
/// ```
/// use card::{tag, Repeats};
/// let packet = *b"demo\0\0\0\x08!";
/// let standing = *b"*dmy\0\0\0\x08.abc_\0\0\0\x0c\xab\xc0";
/// let found = tag::find(&packet, &standing, *b"abc_", Repeats::Forbidden)?;
/// let holder = if found.standing { &standing[..] } else { &packet };
/// let end = found.start + tag::HEAD + found.value.len();
/// assert_eq!(&holder[found.start..end], b"abc_\0\0\0\x0c\xab\xc0");
/// assert_eq!((found.standing, found.start, found.unused), (true, 9, 4));
/// # Ok::<(), card::Refused>(())
/// ```
#[derive(Clone, Copy, Debug, PartialEq, Eq)]
pub struct Found<'a> {
    /// Whether the standing packet holds it.
    pub standing: bool,
    /// The bits of its value.
    pub bits: u32,
    /// The bytes that hold them.
    pub value: &'a [u8],
    /// The byte at which it begins, with its name, in the packet that holds it.
    pub start: usize,
    /// The low bits of its last byte that are not part of the value, 0 to 7; 0 without a last byte.
    pub unused: u8,
}

/// An item of a packet; its value is a part of the packet.
#[derive(Clone, Copy, Debug, PartialEq, Eq)]
pub struct Item<'a> {
    /// Its name.
    pub name: Name,
    /// The bits of its value.
    pub bits: u32,
    /// The bytes that hold them.
    pub value: &'a [u8],
    /// The byte at which it begins, with its name, in the packet.
    pub start: usize,
    /// The low bits of its last byte that are not part of the value, 0 to 7; 0 without a last byte.
    pub unused: u8,
}

/// The items of a packet in their order, containers unopened: a walk with no names, which is proved
/// to be the packet's run of items.
#[derive(Clone, Debug)]
pub struct Items<'a>(Walk<'a>);

/// What a step of a walk hands out.
#[derive(Clone, Copy, Debug, PartialEq, Eq)]
pub enum Step<'a> {
    /// An item; its value is a part of the packet, and items of the outer packet have depth 0. It
    /// begins with its name at byte `start` of the packet walked through, at every depth; `unused`
    /// are the low bits of its last byte that are not part of the value, 0 to 7, as of a [`Found`].
    Item { depth: u8, name: Name, bits: u32, value: &'a [u8], start: usize, unused: u8 },
    /// There is no further item; so many bytes of padding end the packet.
    End { padding: usize },
}

/// A walk through a packet and the containers in it. It borrows both, since a step is only right
/// over the packet and the names that were checked when it was opened.
///
/// ```
/// use card::{tag, Repeats, Step, Walk};
/// let packet = *b"fio_\0\0\0\x48demo\0\0\0\x08!";
/// let names = [*b"fio_"];
/// let mut walk = Walk::open(&packet, &names, Repeats::Forbidden)?;
/// let mut marked = Vec::new();
/// while let Step::Item { depth, name, value, start, .. } = walk.step()? {
///     println!("{depth} {name:?} {} bytes", value.len());
///     marked.push(start..start + tag::HEAD + value.len());
/// }
/// assert_eq!(marked, [0..17, 8..17]);
/// # Ok::<(), card::Refused>(())
/// ```
#[derive(Clone, Debug)]
pub struct Walk<'a> {
    packet: &'a [u8],
    names: &'a [u8],
    walker: [u8; WALKER],
}

/// Writes an item at the front of `out`, unused bits as zeros, and gives its length. Refused: 43,
/// 33, 1.
///
/// ```
/// use card::{tag, Repeats};
/// let mut packet = [0; 32];
/// let length = tag::item(*b"demo", 12, &[0xab, 0xc0], &mut packet)?;
/// let found = tag::find(&packet[..length], &[], *b"demo", Repeats::Forbidden)?;
/// assert_eq!((found.bits, found.value), (12, &[0xab, 0xc0][..]));
/// # Ok::<(), card::Refused>(())
/// ```
pub fn item(name: Name, bits: u32, value: &[u8], out: &mut [u8]) -> Result<usize, Refused> {
    let number = raw::item(u32::from_be_bytes(name), bits, value, out);
    done(number).map(|()| value.len() + HEAD)
}

/// Finds the first item of a name in a packet, else in the standing packet, which may be empty.
/// Refused: 30, 31 or 33 of the packet, then of the standing packet; 34.
pub fn find<'a>(
    packet: &'a [u8],
    standing: &'a [u8],
    name: Name,
    repeats: Repeats,
) -> Result<Found<'a>, Refused> {
    let mut told = [0; raw::TOLD_FIND];
    done(raw::find(packet, standing, u32::from_be_bytes(name), allowed(repeats), &mut told))?;
    let in_standing = told[0] != 0;
    Ok(found(in_standing, if in_standing { standing } else { packet }, &told))
}

/// Finds occurrence `number`, counted from 0, of a name in a packet alone, with no standing packet
/// beside it. Refused: 30, 31 or 33 of the packet; 34 where there is no occurrence of that number.
///
/// ```
/// use card::{tag, Refused, Repeats};
/// let packet = *b"demo\0\0\0\x08!*dmy\0\0\0\0demo\0\0\0\x08?";
/// let demo = |number| tag::nth(&packet, *b"demo", number, Repeats::Allowed);
/// assert_eq!((demo(0)?.value, demo(1)?.value), (&b"!"[..], &b"?"[..]));
/// assert_eq!(demo(2), Err(Refused::ABSENT));
/// # Ok::<(), card::Refused>(())
/// ```
pub fn nth(
    packet: &[u8],
    name: Name,
    number: usize,
    repeats: Repeats,
) -> Result<Found<'_>, Refused> {
    let mut told = [0; raw::TOLD_FIND];
    done(raw::nth(packet, u32::from_be_bytes(name), number, allowed(repeats), &mut told))?;
    Ok(found(false, packet, &told))
}

/// The item that a finding told, in the packet that holds it.
fn found<'a>(standing: bool, holder: &'a [u8], told: &[u8; raw::TOLD_FIND]) -> Found<'a> {
    let (bits, value) = (long(told, 1), part(holder, &told[5..]));
    Found { standing, bits, value, start: place(told, 17), unused: told[25] }
}

/// The word as the library takes it: whether repeats are allowed.
fn allowed(repeats: Repeats) -> usize {
    match repeats {
        Repeats::Forbidden => 0,
        Repeats::Allowed => 1,
    }
}

/// The part of a packet that is told by its place (8 bytes) and its length (4).
fn part<'a>(packet: &'a [u8], told: &[u8]) -> &'a [u8] {
    let from = place(told, 0);
    &packet[from..from + long(told, 8) as usize]
}

impl<'a> Walk<'a> {
    /// Opens a walk; the packet and all that its containers hold are checked. Refused: 43; then 30,
    /// 31, 33, 35 or 32 of the leftmost item at fault.
    pub fn open(
        packet: &'a [u8],
        containers: &'a [Name],
        repeats: Repeats,
    ) -> Result<Walk<'a>, Refused> {
        let names = containers.as_flattened();
        let mut walker = [0; WALKER];
        done(raw::walk_open(packet, names, allowed(repeats), &mut walker))?;
        Ok(Walk { packet, names, walker })
    }

    /// Hands out the next item. Behind the last one it answers `End`, each time. No walk that
    /// `open` gave is refused.
    pub fn step(&mut self) -> Result<Step<'a>, Refused> {
        let mut told = [0; raw::TOLD_STEP];
        done(raw::walk_step(self.packet, self.names, &mut self.walker, &mut told))?;
        if told[0] == 0 {
            return Ok(Step::End { padding: long(&told, 18) as usize });
        }
        let (name, value) = (long(&told, 2).to_be_bytes(), part(self.packet, &told[10..]));
        let (depth, bits, start, unused) = (told[1], long(&told, 6), place(&told, 22), told[30]);
        Ok(Step::Item { depth, name, bits, value, start, unused })
    }
}

/// Checks a packet whole and gives its items. Refused: 30, 31 or 33 of the leftmost item at fault.
///
/// ```
/// use card::{tag, Repeats};
/// let packet = *b"demo\0\0\0\x08!*dmy\0\0\0\0";
/// let items = tag::items(&packet, Repeats::Forbidden)?;
/// let begun: Vec<_> = items.map(|item| (item.start, item.name)).collect();
/// assert_eq!(begun, [(0, *b"demo"), (9, *b"*dmy")]);
/// # Ok::<(), card::Refused>(())
/// ```
pub fn items(packet: &[u8], repeats: Repeats) -> Result<Items<'_>, Refused> {
    Walk::open(packet, &[], repeats).map(Items)
}

impl<'a> Iterator for Items<'a> {
    type Item = Item<'a>;

    fn next(&mut self) -> Option<Item<'a>> {
        match self.0.step() {
            Ok(Step::Item { depth: _, name, bits, value, start, unused }) => {
                Some(Item { name, bits, value, start, unused })
            }
            Ok(Step::End { padding: _ }) | Err(_) => None,
        }
    }
}

impl core::iter::FusedIterator for Items<'_> {}
