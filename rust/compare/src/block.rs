//! The code's block calls: encode, fill.

use card::{block, raw};
use reference::block::{encode as expected_encode, fill as expected_fill, Filled};
use reference::code::{MOST_DATA, PARITY};
use reference::pft::PLACE;

use crate::rng::Rng;
use crate::tally::{hex, number_of, Judge, Tally};

/// k and c of a block that fits a place; `long` of a thousand may have many chunks.
pub fn chunks(rng: &mut Rng, long: usize) -> (usize, usize) {
    let k = rng.within(1, MOST_DATA);
    let most = match rng.below(1_000) {
        draw if draw < long => PLACE / (k + PARITY),
        draw if draw < 200 => 6,
        _ => 2,
    };
    (k, rng.within(1, most))
}

pub fn encode(rng: &mut Rng, tally: &mut Tally) {
    let (mut k, mut c) = chunks(rng, 50);
    let mut length = c * k - rng.below(k);
    match rng.below(30) {
        0 => k = rng.pick(&[0, 208, 255, 256, usize::MAX]),
        1 => c = rng.pick(&[0, c + 1, PLACE / (k + PARITY) + 1, usize::MAX, usize::MAX / 8]),
        2 => length = rng.within(0, (c + 1) * k),
        3 => length = if rng.chance(50) { 0 } else { (PLACE / (k + PARITY) + 1) * k },
        4 => (c, length) = (0, 0),
        _ => {}
    }
    if length > MOST_DATA * 60 && rng.chance(50) {
        c = length.div_ceil(k.max(1));
    }
    let needed = c.saturating_mul(k.saturating_add(PARITY)).min(PLACE + 100);
    let (packet, before) = (rng.bytes(length), rng.room(needed));
    let (mut out, mut typed_out, mut expected_out) =
        (before.clone(), before.clone(), before.clone());
    let number = raw::encode(&packet, k, c, &mut out);
    let typed = block::encode(&packet, k, c, &mut typed_out);
    let expected = expected_encode(&packet, k, c, &mut expected_out);

    let mut judge = Judge::default();
    judge.same("number", number, number_of(&expected));
    judge.bytes("out", &out, &expected_out);
    judge.same("typed", typed.map_err(|refused| refused.0), expected);
    judge.bytes("typed out", &typed_out, &expected_out);
    tally.count(number, judge, || {
        format!("packet={} k={k} c={c} out={}", hex(&packet), hex(&before))
    });
}

/// f and s of fragments that hold so many cells, with cells left over at times.
pub fn fragments(rng: &mut Rng, cells: usize) -> (usize, usize) {
    loop {
        let f = if rng.chance(70) { rng.within(5, 60) } else { rng.within(1, 256) };
        let s = cells.div_ceil(f) + if rng.chance(15) { rng.within(1, 3) } else { 0 };
        if f * s <= PLACE {
            return (f, s);
        }
    }
}

/// Which of f fragments are kept, one byte each; at times fewer bytes or more.
fn kept(rng: &mut Rng, f: usize, n: usize) -> Vec<u8> {
    let least = f - (f * PARITY / n).min(f);
    let lost = match rng.below(10) {
        0..6 => rng.within(0, f - least),
        6..8 => f - least,
        _ => rng.within(0, f),
    };
    let mut kept: Vec<u8> =
        (0..f).map(|i| if i < lost { 0 } else { rng.pick(&[1, 1, 2, 255]) }).collect();
    rng.shuffle(&mut kept);
    if rng.chance(10) {
        kept.resize(rng.within(0, 300), 1);
    }
    kept
}

pub fn fill(rng: &mut Rng, tally: &mut Tally) {
    let (mut k, c) = chunks(rng, 3);
    let n = k + PARITY;
    let (mut f, mut s) = fragments(rng, c * n);
    let mut cells = vec![0; f * s / n * n];
    let length = c * k - rng.below(k);
    let packet = rng.bytes(length);
    block::encode(&packet, k, c, &mut cells).expect("the block fits");
    let kept = kept(rng, f, n);
    scatter(rng, &kept, f, &mut cells);
    if rng.chance(20) {
        rng.damage(&mut cells);
    }
    match rng.below(30) {
        0 => f = rng.pick(&[0, 257, 1_000, usize::MAX]),
        1 => s = rng.pick(&[0, 12_289, 1 << 63, usize::MAX, PLACE / f.max(1) + 1]),
        2 => k = rng.pick(&[0, 208, 255, 256, usize::MAX]),
        3 => s = rng.within(0, s),
        _ => {}
    }
    let length = match rng.below(12) {
        0 => rng.within(0, cells.len()),
        1..5 => cells.len() + rng.within(1, 20),
        _ => cells.len(),
    };
    cells.resize(length, 0xA5);
    judge_fill(&kept, (f, s, k), &cells, tally);
}

/// Writes any bytes into the missing cells.
fn scatter(rng: &mut Rng, kept: &[u8], f: usize, cells: &mut [u8]) {
    for (q, cell) in cells.iter_mut().enumerate() {
        if kept.get(q % f).is_none_or(|kept| *kept == 0) {
            *cell = rng.byte();
        }
    }
}

fn judge_fill(kept: &[u8], (f, s, k): (usize, usize, usize), before: &[u8], tally: &mut Tally) {
    let (mut cells, mut typed_cells, mut expected_cells) =
        (before.to_vec(), before.to_vec(), before.to_vec());
    let flags: Vec<bool> = kept.iter().map(|flag| *flag != 0).collect();
    let number = raw::fill(kept, f, s, k, &mut cells);
    let typed = block::fill(kept, f, s, k, &mut typed_cells);
    let expected = expected_fill(&flags, f, s, k, &mut expected_cells);

    let mut judge = Judge::default();
    let due = match expected {
        Ok(Filled::Nothing) => 256,
        Ok(Filled::NotEnough) => 257,
        _ => number_of(&expected),
    };
    judge.same("number", number, due);
    judge.bytes("block", &cells, &expected_cells);
    let typed = typed.map(|filled| match filled {
        block::Filled::Done => Filled::Done,
        block::Filled::Nothing => Filled::Nothing,
        block::Filled::NotEnough => Filled::NotEnough,
    });
    judge.same("typed", typed.map_err(|refused| refused.0), expected);
    judge.bytes("typed block", &typed_cells, &expected_cells);
    tally.count(number, judge, || {
        format!("kept={} f={f} s={s} k={k} block={}", hex(kept), hex(before))
    });
}
