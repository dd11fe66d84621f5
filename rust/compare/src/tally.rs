//! What was compared: the answers of each kind of call, counted by number.

use std::collections::BTreeMap;
use std::fmt::Debug;

use reference::number;

/// The differences of a kind that are printed whole.
const SHOWN: usize = 3;
/// The calls on either side of the bytes that they tell.
const JUST: &str = "granted with just the bytes for what is told";
const SHORT: &str = "that give 1 with a byte too few for what is told";

/// The differences of one call.
#[derive(Default)]
pub struct Judge {
    differences: Vec<String>,
}

impl Judge {
    /// Compares numbers and answers.
    pub fn same<T: PartialEq + Debug>(&mut self, what: &str, card: T, reference: T) {
        if card != reference {
            self.differences.push(format!("{what}: card {card:?}, reference {reference:?}"));
        }
    }

    /// Compares bytes lent, as they are after the call.
    pub fn bytes(&mut self, what: &str, card: &[u8], reference: &[u8]) {
        if card != reference {
            let (card, reference) = (hex(card), hex(reference));
            self.differences.push(format!("{what}: card {card}, reference {reference}"));
        }
    }
}

/// The calls of one kind: what they are called, and the numbers that they can give.
pub struct Tally {
    pub kind: &'static str,
    numbers: &'static [usize],
    counts: BTreeMap<usize, usize>,
    noted: BTreeMap<&'static str, usize>,
    pub differing: usize,
}

impl Tally {
    pub fn new(kind: &'static str, numbers: &'static [usize]) -> Tally {
        Tally { kind, numbers, counts: BTreeMap::new(), noted: BTreeMap::new(), differing: 0 }
    }

    /// Counts a call as a case of its own where `met` holds; a case that none meets is a fault.
    pub fn note(&mut self, case: &'static str, met: bool) {
        *self.noted.entry(case).or_default() += usize::from(met);
    }

    /// Notes a call that was lent just the bytes that it tells, and one that was lent a byte less.
    pub fn note_room(&mut self, number: usize, lent: &[u8], needed: usize) {
        self.note(JUST, number == 0 && lent.len() == needed);
        self.note(SHORT, number == number::ROOM.into() && lent.len() + 1 == needed);
    }

    /// How many calls met each case, one line each.
    pub fn cases(&self) -> Vec<String> {
        self.noted.iter().map(|(case, met)| format!("{}: {met} calls {case}", self.kind)).collect()
    }

    /// Counts a call by its number, and prints it where it differs.
    pub fn count(&mut self, number: usize, judge: Judge, inputs: impl FnOnce() -> String) {
        *self.counts.entry(number).or_default() += 1;
        if judge.differences.is_empty() {
            return;
        }
        self.differing += 1;
        if self.differing <= SHOWN {
            println!("DIFFERENCE in {}, call {}: {}", self.kind, self.calls(), inputs());
            for difference in &judge.differences {
                println!("    {difference}");
            }
        }
    }

    pub fn calls(&self) -> usize {
        self.counts.values().sum()
    }

    /// How many calls gave a number.
    pub fn given(&self, number: usize) -> usize {
        self.counts.get(&number).copied().unwrap_or(0)
    }

    /// The numbers that the calls gave and how often.
    pub fn line(&self) -> String {
        let counts: Vec<String> =
            self.counts.iter().map(|(number, count)| format!("{number}: {count}")).collect();
        format!("{:<10} {:>7}   {}", self.kind, self.calls(), counts.join("  "))
    }

    /// What is wrong with the calls of this kind, one line each.
    pub fn faults(&self, calls: usize) -> Vec<String> {
        let mut faults = Vec::new();
        if self.differing > 0 {
            faults.push(format!("{}: {} calls differ", self.kind, self.differing));
        }
        if self.calls() < calls {
            faults.push(format!("{}: under {calls} calls", self.kind));
        }
        if self.given(0) * 3 < self.calls() {
            faults.push(format!("{}: under a third succeed", self.kind));
        }
        for (case, _) in self.noted.iter().filter(|(_, met)| **met == 0) {
            faults.push(format!("{}: no calls {case}", self.kind));
        }
        for number in self.numbers.iter().filter(|number| self.given(**number) == 0) {
            faults.push(format!("{}: number {number} never occurs", self.kind));
        }
        for number in self.counts.keys().filter(|number| !self.numbers.contains(number)) {
            faults.push(format!("{}: number {number} is none of its own", self.kind));
        }
        faults
    }
}

/// Bytes in hex, `-` for none.
pub fn hex(bytes: &[u8]) -> String {
    if bytes.is_empty() {
        return "-".to_string();
    }
    bytes.iter().map(|byte| format!("{byte:02x}")).collect()
}

/// The number of an answer of the reference: 0 where it refuses nothing.
pub fn number_of<T>(answer: &Result<T, u8>) -> usize {
    answer.as_ref().err().map_or(0, |number| usize::from(*number))
}

/// What is due of an answer of the reference that takes `needed` bytes to tell: its refusal, and
/// then 1 where fewer are lent.
pub fn due<'a, T>(answer: &'a Result<T, u8>, lent: &[u8], needed: usize) -> Result<&'a T, u8> {
    match answer {
        Ok(_) if lent.len() < needed => Err(number::ROOM),
        Ok(told) => Ok(told),
        Err(number) => Err(*number),
    }
}

/// What is lent for an answer, after the call told it: at the front.
pub fn told(before: &[u8], told: &[u8]) -> Vec<u8> {
    let mut after = before.to_vec();
    after[..told.len()].copy_from_slice(told);
    after
}
