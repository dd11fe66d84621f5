//! The proved card and the card in plain Rust, compared call by call on random inputs.
//!
//! Each kind of call is made by the numbers and bytes of the C call and by the typed call of crate
//! `card`. Number, what is told and every byte lent afterwards are held against the reference.
#![forbid(unsafe_code)]

mod af;
mod asked;
mod bandwidth;
mod block;
mod call;
mod field;
mod find;
mod header;
mod places;
mod receiver;
mod record;
mod rng;
mod sender;
mod tag;
mod tally;
mod traffic;
mod walk;
mod walker;

use std::process::ExitCode;
use std::time::{Instant, SystemTime, UNIX_EPOCH};

use asked::Question;
use receiver::Desk;
use rng::Rng;
use tally::Tally;

/// The calls of each kind, at least.
const CALLS: usize = 100_000;
/// The calls of the receiver, which have many fragments to a packet.
const RECEIVED: usize = 2 * CALLS;

/// Every number of document 01, and of document 02 those of Item 10.
const NUMBERS: [std::ops::RangeInclusive<usize>; 5] = [1..=14, 20..=25, 30..=35, 40..=44, 60..=61];

type Compared = fn(&mut Rng, &mut Tally);

/// The kinds that are compared one call after another, with the numbers that each can give.
const KINDS: [(&str, &[usize], Compared); 12] = [
    ("wrap", &[0, 1, 22], af::wrap),
    ("check", &[0, 1, 20, 21, 22, 23, 24, 25], af::check),
    ("item", &[0, 1, 33, 43], tag::item),
    ("find", &[0, 1, 30, 31, 33, 34], find::find),
    ("nth", &[0, 1, 30, 31, 33, 34], find::nth),
    ("plan", &[0, 1, 20, 22, 40, 41], sender::plan),
    ("endure", &[0, 1, 20, 22, 40, 41], sender::endure),
    ("fragment", &[0, 1, 20, 21, 22, 23, 24, 25, 40, 41, 42], sender::fragment),
    ("fragments", &[0, 1, 20, 21, 22, 23, 24, 25, 40, 41], sender::fragments),
    ("parse", &[0, 1, 2, 3, 4, 5, 6, 7, 8], header::parse),
    ("encode", &[0, 1, 8], block::encode),
    ("fill", &[0, 1, 7, 8, 256, 257], block::fill),
];

/// The walk: opened, and stepped through where it is not refused.
const WALK: &str = "walk_open";
/// The receiver's three calls.
const RECEIVE: &str = "receive";

/// The kinds of questions to the console, with the numbers that each can give.
const ASKED: [(&str, &[usize], Question); 2] = [
    ("field", &[0, 44], field::question),
    ("bandwidth", &[0, 1, 30, 31, 33, 34, 60, 61], bandwidth::question),
];

fn main() -> ExitCode {
    let mut words = std::env::args().skip(1);
    let clock = SystemTime::now().duration_since(UNIX_EPOCH).map_or(0, |since| since.as_nanos());
    let seed = words.next().map_or(Ok(clock as u64), |word| word.parse());
    let (Ok(seed), only, None) = (seed, words.next(), words.next()) else {
        eprintln!("usage: compare [SEED [KIND]]");
        return ExitCode::from(2);
    };
    println!("seed {seed}");
    let tallies = run(seed, only.as_deref());
    report(&tallies, only.is_none())
}

/// Compares all kinds, or one.
fn run(seed: u64, only: Option<&str>) -> Vec<Tally> {
    let wanted = |kind: &str| only.is_none_or(|only| only == kind);
    let mut tallies = Vec::new();
    for (kind, numbers, compared) in KINDS.into_iter().filter(|(kind, ..)| wanted(kind)) {
        let (mut rng, mut tally) = (Rng::new(seed, kind), Tally::new(kind, numbers));
        timed(kind, || (0..CALLS).for_each(|_| compared(&mut rng, &mut tally)));
        tallies.push(tally);
    }
    if wanted(WALK) {
        tallies.extend(walks(seed));
    }
    if wanted(RECEIVE) {
        tallies.extend(receptions(seed));
    }
    for (kind, numbers, question) in ASKED.into_iter().filter(|(kind, ..)| wanted(kind)) {
        tallies.push(questions(seed, kind, numbers, question));
    }
    tallies
}

/// Says on standard error how long a kind took.
fn timed(kind: &str, work: impl FnOnce()) {
    let start = Instant::now();
    work();
    eprintln!("{kind}: {:.1} s", start.elapsed().as_secs_f64());
}

fn walks(seed: u64) -> [Tally; 2] {
    let mut rng = Rng::new(seed, WALK);
    let mut opened = Tally::new(WALK, &[0, 1, 30, 31, 32, 33, 35, 43]);
    let mut stepped = Tally::new("walk_step", &[0, 1, 30, 43]);
    timed(WALK, || (0..CALLS).for_each(|_| walk::walk(&mut rng, &mut opened, &mut stepped)));
    [opened, stepped]
}

fn receptions(seed: u64) -> [Tally; 3] {
    let mut rng = Rng::new(seed, RECEIVE);
    let mut desk = Desk::new(&mut rng);
    timed(RECEIVE, || (0..RECEIVED).for_each(|_| desk.turn(&mut rng)));
    let delivered = |wanted: fn(usize, usize) -> bool| {
        desk.delivered.iter().filter(|(length, missing)| wanted(*length, *missing)).count()
    };
    println!(
        "receive: {} packets handed out, {} over 207 bytes, {} over 3,000, {} with fragments missing",
        desk.delivered.len(),
        delivered(|length, _| length > 207),
        delivered(|length, _| length > 3_000),
        delivered(|_, missing| missing > 0),
    );
    println!("receive: {} calls from records that no calls leave, compared in part", desk.strays);
    [desk.received, desk.queried, desk.cleared]
}

fn questions(
    seed: u64,
    kind: &'static str,
    numbers: &'static [usize],
    question: Question,
) -> Tally {
    let (mut rng, mut tally) = (Rng::new(seed, kind), Tally::new(kind, numbers));
    timed(kind, || {
        if let Err(fault) = asked::compare(&mut rng, &mut tally, CALLS, question) {
            println!("the console cannot be asked: {fault}");
        }
    });
    tally
}

/// Prints the counts and what is wrong with them.
fn report(tallies: &[Tally], whole: bool) -> ExitCode {
    for case in tallies.iter().flat_map(Tally::cases) {
        println!("{case}");
    }
    println!("kind         calls   number: how often");
    for tally in tallies {
        println!("{}", tally.line());
    }
    let mut faults: Vec<String> = tallies.iter().flat_map(|tally| tally.faults(CALLS)).collect();
    for number in NUMBERS.into_iter().flatten().filter(|_| whole) {
        if tallies.iter().all(|tally| tally.given(number) == 0) {
            faults.push(format!("number {number} never occurs"));
        }
    }
    if tallies.is_empty() {
        faults.push("there is no such kind".to_string());
    }
    for fault in &faults {
        println!("{fault}");
    }
    println!("{}", if faults.is_empty() { "equal" } else { "not equal, or not enough" });
    ExitCode::from(u8::from(!faults.is_empty()))
}
