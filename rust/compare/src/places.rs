//! The receiver's places: query, clear.

use card::{raw, Place};
use reference::number;
use reference::receiver::{Condition, Table, LENT};

use crate::call::Call;
use crate::record;
use crate::rng::Rng;
use crate::tally::{due as due_of, hex, number_of, told, Judge, Tally};

/// The number that is due for query and clear: the record's, then 1 for bytes that are not 49,152.
fn due(call: &Call) -> usize {
    match record::fault(&call.table) {
        0 if call.lent.len() != LENT => number::ROOM.into(),
        fault => fault,
    }
}

pub fn query(rng: &mut Rng, tally: &mut Tally, call: &Call) {
    let (before, due) = (rng.room(raw::TOLD_QUERY), due(call));
    let mut after = before.clone();
    let number = raw::query(&call.table, &call.lent, &mut after);

    let mut judge = Judge::default();
    let shown = if due == 0 { Ok(record::shown(&call.table)) } else { Err(due as u8) };
    let in_room = due_of(&shown, &before, raw::TOLD_QUERY);
    judge.same("number", number, number_of(&in_room));
    judge.bytes("told", &after, &in_room.map_or(before.clone(), |shown| told(&before, shown)));
    if let Some(places) = typed_query(call) {
        judge.same("typed", places, shown);
    }
    if let Some(table) = record::table_of(&call.table) {
        let places = |shown: [_; 4]| shown.into_iter().flat_map(bytes).collect::<Vec<u8>>();
        let expected = table.query(&call.lent).map(places);
        let in_room = due_of(&expected, &before, raw::TOLD_QUERY);
        judge.same("number by the reference", number, number_of(&in_room));
        let line = in_room.map_or(before.clone(), |places| told(&before, places));
        judge.bytes("told by the reference", &after, &line);
    }
    tally.count(number, judge, || call.inputs() + " told=" + &hex(&before));
}

/// A place as the reference shows it.
fn bytes(place: Option<(u16, Condition)>) -> Vec<u8> {
    let (number, condition) =
        place.map_or((0, 0), |(number, condition)| (number, record::condition_byte(condition)));
    [&[condition][..], &number.to_be_bytes()].concat()
}

pub fn clear(tally: &mut Tally, call: &Call) {
    let (mut cleared, due) = (call.table.clone(), due(call));
    let number = raw::clear(&mut cleared, &call.lent);

    let mut judge = Judge::default();
    judge.same("number", number, due);
    let fresh = record::bytes_of(&Table::fresh());
    judge.bytes("table", &cleared, if due == 0 { &fresh } else { &call.table });
    typed_clear(&mut judge, call, due);
    tally.count(number, judge, || call.inputs());
}

/// What the typed query shows, as the bytes that the call tells.
fn typed_query(call: &Call) -> Option<Result<Vec<u8>, u8>> {
    let shown = |place: Place| {
        let (condition, number) = match place {
            Place::Free => (0, 0),
            Place::Open(number) => (1, number),
            Place::Delivered(number) => (2, number),
            Place::Spoiled(number) => (3, number),
        };
        [&[condition][..], &number.to_be_bytes()].concat()
    };
    let places = call.clone().with_typed(|receiver, _, _| receiver.query())?;
    Some(places.map(|places| places.map(shown).concat()).map_err(|refused| refused.0))
}

fn typed_clear(judge: &mut Judge, call: &Call, due: usize) {
    let mut after = call.clone();
    let Some(typed) = after.with_typed(|receiver, _, _| receiver.clear()) else {
        return;
    };
    judge.same(
        "typed",
        typed.map_err(|refused| refused.0.into()),
        if due == 0 { Ok(()) } else { Err(due) },
    );
    judge.bytes("typed lent", &after.lent, &call.lent);
    let fresh = record::bytes_of(&Table::fresh());
    judge.bytes("typed table", &after.table, if due == 0 { &fresh } else { &call.table });
}
