//! A call of the receiver: what is lent for it, and what it is about.

use card::Receiver;
use reference::af;
use reference::plan::Address;
use reference::receiver::LENT;

use crate::record;
use crate::rng::Rng;
use crate::tally::{hex, Judge};

/// What is lent for a call of receive, and what it is about.
#[derive(Clone, Debug, PartialEq)]
pub struct Call {
    pub own: Option<Address>,
    pub table: Vec<u8>,
    pub lent: Vec<u8>,
    pub datagram: Vec<u8>,
    pub told: Vec<u8>,
    pub out: Vec<u8>,
    /// The datagram is as it was sent, and the older rule would have cut its packet otherwise.
    pub otherwise: bool,
}

impl Call {
    /// Lends too few bytes or too many, in one place or another.
    pub fn misfit(&mut self, rng: &mut Rng) {
        match rng.below(3) {
            0 => self.out.truncate(rng.pick(&[0, 100, af::MOST - 1])),
            1 => self.lent.resize(rng.pick(&[0, LENT - 1, LENT + 1, 2 * LENT]), 0),
            _ => self.table.resize(rng.pick(&[0, record::RECORD - 1, record::RECORD + 1]), 0),
        }
    }

    /// Compares all that was lent.
    pub fn compare(&self, judge: &mut Judge, side: &str, expected: &Call) {
        judge.bytes(&format!("{side}table"), &self.table, &expected.table);
        judge.bytes(&format!("{side}lent"), &self.lent, &expected.lent);
        judge.bytes(&format!("{side}told"), &self.told, &expected.told);
        judge.bytes(&format!("{side}out"), &self.out, &expected.out);
    }

    /// A receiver over what was lent, if the lengths are those of its types.
    pub fn with_typed<T>(
        &mut self,
        act: impl FnOnce(&mut Receiver, &[u8], &mut [u8]) -> T,
    ) -> Option<T> {
        let (record, lent) =
            (self.table[..].try_into().ok()?, (&mut self.lent[..]).try_into().ok()?);
        let mut receiver = Receiver::resume(record, lent);
        let answer = act(&mut receiver, &self.datagram, &mut self.out);
        self.table = receiver.record().to_vec();
        Some(answer)
    }

    /// All of it in hex.
    pub fn inputs(&self) -> String {
        let Call { own, table, lent, datagram, told, out, .. } = self;
        let (table, lent, datagram) = (hex(table), hex(lent), hex(datagram));
        format!(
            "own={own:?} datagram={datagram} told={} out={} table={table} lent={lent}",
            hex(told),
            hex(out)
        )
    }
}
