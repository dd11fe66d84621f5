//! The receiver: receive, query, clear over one state that goes on from call to call.

use card::{raw, Received as Typed};
use reference::pft::read;
use reference::plan::Address;
use reference::receiver::{Kept, Received, Table, LENT};
use reference::{af, number};

use crate::call::Call;
use crate::places;
use crate::record;
use crate::rng::Rng;
use crate::sender::{pair, typed_address};
use crate::tally::{number_of, told, Judge, Tally};
use crate::traffic::{damage, Datagram, Traffic};

/// The packets that show the newer rule to the receiver, which is not told of it.
const OTHERWISE: &str = "that hand out a packet which the older rule would have cut otherwise";

/// What the reference comes to: its answer, its table and all that was lent, afterwards.
struct Known {
    answer: Result<Received, u8>,
    table: Table,
    after: Call,
}

/// How a call of receive can be judged.
enum Due {
    /// The reference has this record.
    Known(Box<Known>),
    /// It is refused before the record's places are looked at.
    Refused(usize),
    /// The record is in range, but no calls of the reference leave such a one.
    Stray,
}

/// The state that both sides have, the packets on their way, and the calls that were judged.
pub struct Desk {
    table: Table,
    lent: Vec<u8>,
    traffic: Traffic,
    pub received: Tally,
    pub queried: Tally,
    pub cleared: Tally,
    /// Calls from a stray record that were not refused for anything before its places.
    pub strays: usize,
    /// The lengths of the packets handed out, and how many fragments of each were not held.
    pub delivered: Vec<(usize, usize)>,
}

impl Desk {
    pub fn new(rng: &mut Rng) -> Desk {
        let numbers = &[0, 1, 2, 3, 4, 5, 6, 7, 8, 9, 10, 11, 12, 13, 14];
        Desk {
            table: Table::fresh(),
            lent: rng.bytes(LENT),
            traffic: Traffic::default(),
            received: Tally::new("receive", numbers),
            queried: Tally::new("query", &[0, 1, 14]),
            cleared: Tally::new("clear", &[0, 1, 14]),
            strays: 0,
            delivered: Vec::new(),
        }
    }

    /// A call of each kind. What receive leaves goes on, unless its record was changed for it.
    pub fn turn(&mut self, rng: &mut Rng) {
        let (mut call, changed) = self.call(rng);
        if rng.chance(3) {
            call.misfit(rng);
        }
        if let Some(known) = self.receive(rng, &call) {
            self.note(rng, &known.answer, &call);
            if !changed && call.lent.len() == LENT {
                self.table = known.table;
                self.lent = known.after.lent;
            }
        }
        places::query(rng, &mut self.queried, &call);
        places::clear(&mut self.cleared, &call);
        if rng.below(700) == 0 {
            self.table = Table::fresh();
        }
    }

    /// The next call, and whether its record was changed.
    fn call(&mut self, rng: &mut Rng) -> (Call, bool) {
        let Datagram { bytes: mut datagram, address, otherwise } = self.traffic.next(rng);
        let damaged = rng.chance(12);
        if damaged {
            damage(rng, &mut datagram, address);
        }
        let other = Some(Address { source: rng.short(), dest: rng.short() });
        let own = if rng.chance(95) { address } else { rng.pick(&[None, other]) };
        let mut table = record::bytes_of(&self.table);
        let changed = rng.chance(10);
        if changed {
            for _ in 0..rng.within(1, 2) {
                record::change(rng, &mut table);
            }
        }
        let (told, room) = (rng.room(raw::TOLD_RECEIVE), af::MOST + rng.pick(&[0, 0, 1, 300]));
        let (lent, out) = (self.lent.clone(), rng.bytes(room));
        let otherwise = otherwise && !damaged;
        (Call { own, table, lent, datagram, told, out, otherwise }, changed)
    }

    /// Compares a call of receive; gives what the reference came to, where it is known.
    fn receive(&mut self, rng: &mut Rng, call: &Call) -> Option<Box<Known>> {
        let (addressed, source, dest) = pair(rng, call.own);
        let mut after = call.clone();
        let Call { table, lent, datagram, told, out, .. } = &mut after;
        let number = raw::receive(addressed, source, dest, table, lent, datagram, told, out);
        let mut judge = Judge::default();
        let (due, untold) = (self.due(call), untold(call));
        match &due {
            _ if untold => {
                judge.same("number", number, number::ROOM.into());
                after.compare(&mut judge, "", call);
            }
            Due::Known(known) => {
                judge.same("number", number, number_due(&known.answer));
                after.compare(&mut judge, "", &known.after);
                typed(&mut judge, call, &known.answer, &known.after);
            }
            Due::Refused(due) => {
                judge.same("number", number, *due);
                after.compare(&mut judge, "", call);
                typed(&mut judge, call, &Err(*due as u8), call);
            }
            Due::Stray => {
                self.strays += 1;
                stray(&mut judge, number, call, &after);
            }
        }
        self.received.count(number, judge, || {
            let pair = format!("addressed={addressed} source={source} dest={dest}");
            format!("{pair} {}", call.inputs())
        });
        match due {
            Due::Known(known) if !untold => Some(known),
            _ => None,
        }
    }

    /// What is due: the record first, then what the reference says, if it has the record.
    fn due(&self, call: &Call) -> Due {
        let fault = record::fault(&call.table);
        if fault != 0 {
            return Due::Refused(fault);
        }
        let own_record = call.table == record::bytes_of(&self.table);
        let model =
            if own_record { Some(self.table.clone()) } else { record::table_of(&call.table) };
        if let Some(mut table) = model {
            let mut after = call.clone();
            let answer = table.receive(call.own, &mut after.lent, &call.datagram, &mut after.out);
            after.table = record::bytes_of(&table);
            if let (Ok(received), false) = (&answer, untold(call)) {
                after.told = told(&call.told, &bytes(received));
            }
            return Due::Known(Box::new(Known { answer, table, after }));
        }
        if call.lent.len() != LENT || call.out.len() < af::MOST {
            return Due::Refused(number::ROOM.into());
        }
        match read(&call.datagram, call.own) {
            Err(number) => Due::Refused(number.into()),
            Ok(_) => Due::Stray,
        }
    }

    /// Counts packets handed out, and mostly stops sending what has come.
    fn note(&mut self, rng: &mut Rng, answer: &Result<Received, u8>, call: &Call) {
        let Ok(Received { kept: Kept::Delivered { length, missing }, .. }) = answer else {
            return;
        };
        self.received.note(OTHERWISE, call.otherwise);
        self.delivered.push((*length, *missing));
        if rng.chance(70) {
            self.traffic.forget(u16::from_be_bytes([call.datagram[2], call.datagram[3]]));
        }
    }
}

/// Whether a call lends a record, and too few bytes to tell in: that is refused before the datagram
/// is looked at.
fn untold(call: &Call) -> bool {
    record::fault(&call.table) == 0 && call.told.len() < raw::TOLD_RECEIVE
}

/// The number of an answer: a damaged packet is told as 13.
fn number_due(answer: &Result<Received, u8>) -> usize {
    match answer {
        Ok(Received { kept: Kept::Damaged, .. }) => number::DAMAGED.into(),
        _ => number_of(answer),
    }
}

/// Whether a packet was handed out, its length, the fragments not held; the displaced number.
fn bytes(received: &Received) -> Vec<u8> {
    let (handed, length, missing) = match received.kept {
        Kept::Delivered { length, missing } => (1, length as u16, missing as u16),
        _ => (0, 0, 0),
    };
    let mut bytes = vec![handed];
    bytes.extend(length.to_be_bytes());
    bytes.extend(missing.to_be_bytes());
    bytes.push(received.displaced.is_some().into());
    bytes.extend(received.displaced.unwrap_or(0).to_be_bytes());
    bytes
}

/// From a stray record only this is compared: the number is 0 or 9 to 13; what is refused changes
/// nothing; and else the record stays in range.
fn stray(judge: &mut Judge, number: usize, call: &Call, after: &Call) {
    judge.same(
        "number of a stray is 0 or 9 to 13",
        number == 0 || (9..=13).contains(&number),
        true,
    );
    if number == 0 || number == 13 {
        judge.same("fault of a stray's record after", record::fault(&after.table), 0);
    } else {
        after.compare(judge, "stray ", call);
    }
}

/// The same by the typed call.
fn typed(judge: &mut Judge, call: &Call, answer: &Result<Received, u8>, expected: &Call) {
    let (mut after, own) = (call.clone(), typed_address(call.own));
    let typed = after.with_typed(|receiver, datagram, out| receiver.receive(own, datagram, out));
    let Some(typed) = typed else {
        return;
    };
    let as_reference = |typed: Typed| match typed {
        Typed::Waits { displaced } => Received { kept: Kept::Waits, displaced },
        Typed::Damaged { displaced } => Received { kept: Kept::Damaged, displaced },
        Typed::Delivered { length, missing, displaced } => {
            Received { kept: Kept::Delivered { length, missing }, displaced }
        }
    };
    let typed = typed.map(as_reference).map_err(|refused| refused.0);
    judge.same("typed", &typed, answer);
    after.told.clone_from(&expected.told);
    after.compare(judge, "typed ", expected);
}
