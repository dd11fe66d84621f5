//! Clause 7.2 of both editions: the sizes of a packet's fragments.

use crate::code::{MOST_DATA, PARITY};
use crate::{af, number, refuse, Answer};

/// The most fragments of a packet (document 01, "Bounds").
pub const MOST_FRAGMENTS: usize = 256;
/// The greatest MTU.
pub const MOST_MTU: usize = 16_384;
/// The greatest m.
pub const MOST_LOSSES: usize = 5;

/// The optional address of a fragment, or the pair a receiver is configured for.
#[derive(Clone, Copy, Debug, PartialEq)]
pub struct Address {
    pub source: u16,
    pub dest: u16,
}

/// By which edition's formula S is worked out (document 02, Item 6): document 000's is the older,
/// document 001's the newer.
#[derive(Clone, Copy, Debug, PartialEq)]
pub enum Rule {
    Older,
    Newer,
}

/// How a sender cuts.
#[derive(Clone, Copy, Debug, PartialEq)]
pub struct Settings {
    pub fec: bool,
    pub m: usize,
    pub mtu: usize,
    pub address: Option<Address>,
    pub rule: Rule,
}

/// The house default (document 02, Item 5).
pub const HOUSE: Settings =
    Settings { fec: true, m: 1, mtu: 1_400, address: None, rule: Rule::Older };
/// The setting for two losses, the house default of document 01, "Bounds".
pub const TWO_LOSSES: Settings =
    Settings { fec: true, m: 2, mtu: 1_400, address: None, rule: Rule::Older };

/// The sizes under their names in document 01; `most` is S and `total` is L. Without FEC c, k, z
/// and n are 0. `losses` is how many fragments may be lost whichever they are, as the sender
/// assures it, and none without FEC.
#[derive(Clone, Copy, Debug, PartialEq)]
pub struct Plan {
    pub c: usize,
    pub k: usize,
    pub z: usize,
    pub n: usize,
    pub most: usize,
    pub total: usize,
    pub f: usize,
    pub s: usize,
    pub h: usize,
    pub losses: usize,
}

impl Plan {
    /// Plen of fragment i: s, but without FEC the last fragment has what is left.
    pub fn payload(&self, i: usize) -> usize {
        let coded = self.c > 0;
        if coded || i + 1 < self.f {
            self.s
        } else {
            self.total - i * self.s
        }
    }
}

/// h: 14 bytes, two more with FEC, four more with an address.
pub fn header_length(fec: bool, address: bool) -> usize {
    14 + if fec { 2 } else { 0 } + if address { 4 } else { 0 }
}

/// 40 where the settings are out of bounds.
pub fn check_settings(settings: &Settings) -> Answer<()> {
    let h = header_length(settings.fec, settings.address.is_some());
    let too_many_losses = settings.m > MOST_LOSSES;
    let losses_without_fec = settings.m > 0 && !settings.fec;
    let mtu_out = settings.mtu <= h || settings.mtu > MOST_MTU;
    refuse(too_many_losses || losses_without_fec || mtu_out, number::SETTINGS)
}

/// The sizes for an AF packet of l bytes; refusals 40, then 20 or 22, then 41.
pub fn plan(settings: &Settings, l: usize) -> Answer<Plan> {
    check_settings(settings)?;
    refuse(l < af::LEAST, number::AF_SHORT)?;
    refuse(l > af::MOST, number::AF_LENGTH)?;
    let plan = sizes(settings, l);
    refuse(plan.f > MOST_FRAGMENTS, number::TOOMANY)?;
    Ok(plan)
}

/// The formulas of clause 7.2.2, as documents 01 and 02 write them.
fn sizes(settings: &Settings, l: usize) -> Plan {
    let h = header_length(settings.fec, settings.address.is_some());
    let (c, k, z, n) = if settings.fec { chunks(l) } else { (0, 0, 0, 0) };
    let room = settings.mtu - h;
    let most = match (settings.m, settings.rule) {
        (0, _) => room,
        (m, Rule::Older) => room.min(PARITY * c / (m + 1)),
        (m, Rule::Newer) => room.min(PARITY * c / m),
    };
    let total = if settings.fec { c * n } else { l };
    let f = total.div_ceil(most);
    let s = total.div_ceil(f);
    Plan { c, k, z, n, most, total, f, s, h, losses: assured(settings, c) }
}

/// Document 02, Item 6: m, but 4 when m is 5 and c above 1 under the new rule.
fn assured(settings: &Settings, c: usize) -> usize {
    match (settings.rule, settings.m) {
        (Rule::Newer, 5) if c > 1 => 4,
        (_, m) => m,
    }
}

/// c, k, z and n of a packet of l bytes.
fn chunks(l: usize) -> (usize, usize, usize, usize) {
    let c = l.div_ceil(MOST_DATA);
    let k = l.div_ceil(c);
    (c, k, c * k - l, k + PARITY)
}
