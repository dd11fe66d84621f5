//! The numbers of refusals, with document 01's names, as crates/card/card.h lists them.

use core::fmt;

/// The number of a refusal (document 01, "Numbers given back"). Each has a constant under its name,
/// so that a caller writes `Err(Refused::LATE)`.
///
/// ```
/// use card::Refused;
/// assert_eq!(Refused(11), Refused::LATE);
/// assert_eq!(Refused::LATE.name(), "LATE");
/// assert_eq!(Refused::LATE.to_string(), "11 LATE: the packet was handed out already");
/// ```
#[derive(Clone, Copy, PartialEq, Eq, Hash)]
pub struct Refused(pub u8);

/// A constant for each number, its name and its meaning.
macro_rules! numbers {
    ($($name:ident = $number:literal, $meaning:literal;)*) => {
        impl Refused {
            $(#[doc = $meaning] pub const $name: Refused = Refused($number);)*

            /// Name and meaning of the number.
            const fn entry(self) -> (&'static str, &'static str) {
                match self.0 {
                    $($number => (stringify!($name), $meaning),)*
                    _ => ("NONE", "no number of the card"),
                }
            }
        }
    };
}

numbers! {
    ROOM = 1, "the bytes lent are too few, or not as many as they must be";
    SHORT = 2, "the datagram has under 14 bytes, or under the header its flags call for";
    SYNC = 3, "the datagram does not begin with \"PF\"";
    HCRC = 4, "the CRC of the datagram's header is wrong";
    LENGTH = 5, "the datagram has no payload, or not the one its header tells";
    ADDRESS = 6, "the datagram has an address, and that is not the one given, or none is given";
    COUNT = 7, "f is 0 or over 256, or the fragment's index is not below it";
    SIZE = 8, "sizes that cannot be: too many bytes for a block or too few for a chunk, k not 1 \
        to 207, or z not below k";
    MISMATCH = 9, "the packet's number is held with another f, FEC, k or z, or with a size that \
        cannot belong";
    SPOILED = 10, "no packet agreed with the fragments of this packet";
    LATE = 11, "the packet was handed out already";
    REPEAT = 12, "the fragment is kept already";
    DAMAGED = 13, "the fragment is kept, and no packet agrees with those kept";
    STATE = 14, "the record is none: one of its fields is out of its range";
    AF_SHORT = 20, "the AF packet has under 12 bytes";
    AF_SYNC = 21, "the AF packet does not begin with \"AF\"";
    AF_LENGTH = 22, "the AF packet's length is not LEN + 12, or is over 8,192";
    AF_MAJOR = 23, "the AF packet's major revision is not 1";
    AF_TYPE = 24, "the AF packet's type is not 'T'";
    AF_CRC = 25, "the AF packet's CRC field is wrong";
    OVERRUN = 30, "an item passes the end of its packet";
    TWICE = 31, "a name other than \"*dmy\" stands twice on one level of a packet, and repeats are \
        forbidden";
    DEPTH = 32, "an item stands at depth 5";
    PTR = 33, "\"*ptr\" has not 64 bits";
    ABSENT = 34, "the name is in neither packet, or the packet has no occurrence of that number";
    WHOLE = 35, "a container has not whole bytes";
    SETTINGS = 40, "settings that cannot be: m over 5, m above 0 without FEC, or mtu over 16,384 \
        or not above h";
    TOOMANY = 41, "the packet would take over 256 fragments";
    INDEX = 42, "the fragment asked for is not below f";
    BITS = 43, "the value has not as many bytes as its bits take; or the names are over 8, or not \
        four bytes each";
    ZERO = 44, "a division by zero or the logarithm of zero, which no call for C makes";
}

impl Refused {
    /// Document 01's name, `NONE` of a number that is none.
    pub const fn name(self) -> &'static str {
        self.entry().0
    }

    /// What it means, in a line.
    pub const fn meaning(self) -> &'static str {
        self.entry().1
    }
}

impl fmt::Display for Refused {
    fn fmt(&self, f: &mut fmt::Formatter) -> fmt::Result {
        write!(f, "{} {}: {}", self.0, self.name(), self.meaning())
    }
}

/// As `Display`, since `main` shows so what it ends with.
impl fmt::Debug for Refused {
    fn fmt(&self, f: &mut fmt::Formatter) -> fmt::Result {
        write!(f, "Refused({self})")
    }
}

impl core::error::Error for Refused {}
