//! Document 02, Item 12: how many losses a cut stands exactly, by counting its cells.

use std::ops::Range;

use crate::code::PARITY;
use crate::plan::{plan, Plan, Settings};
use crate::Answer;

/// `most` is w, the greatest number such that any w lost fragments leave every chunk at most 48
/// bytes short; `lost` are w + 1 of the f fragments, whose loss does not.
#[derive(Debug, PartialEq)]
pub struct Endurance {
    pub most: usize,
    pub f: usize,
    pub lost: Vec<usize>,
}

/// What the cut of an AF packet of l bytes stands; refusals as of its plan. Without FEC every
/// fragment is needed, and w is 0.
pub fn endure(settings: &Settings, l: usize) -> Answer<Endurance> {
    let plan = plan(settings, l)?;
    let most = if settings.fec { stood(&plan) } else { 0 };
    let lost: Vec<usize> = (0..=most).collect();
    assert!(!settings.fec || too_short(&plan, &lost), "the cut stands the loss of {lost:?}");
    Ok(Endurance { most, f: plan.f, lost })
}

/// w with FEC: the most that w losses take of a chunk are the w greatest shares of it. More losses
/// take no less, so the first number that takes too much ends the count.
fn stood(plan: &Plan) -> usize {
    let chunks: Vec<Vec<usize>> = chunks(plan).map(|cells| shares(plan, cells)).collect();
    let taken = |shares: &[usize], w: usize| -> usize { shares[..w].iter().sum() };
    let stands = |w: &usize| chunks.iter().all(|shares| taken(shares, *w) <= PARITY);
    (1..=plan.f).take_while(stands).count()
}

/// The cells of each chunk; the receiver has floor(f s / n) chunks of n cells.
fn chunks(plan: &Plan) -> impl Iterator<Item = Range<usize>> {
    let n = plan.n;
    (0..plan.f * plan.s / n).map(move |j| j * n..(j + 1) * n)
}

/// How many cells of a chunk each fragment has, the most first: cell q lies in fragment q mod f.
fn shares(plan: &Plan, cells: Range<usize>) -> Vec<usize> {
    let mut shares = vec![0; plan.f];
    for q in cells {
        shares[q % plan.f] += 1;
    }
    shares.sort_unstable_by(|one, other| other.cmp(one));
    shares
}

/// Whether a chunk is more than 48 bytes short where these fragments are lost.
fn too_short(plan: &Plan, lost: &[usize]) -> bool {
    let missing = |cells: Range<usize>| cells.filter(|q| lost.contains(&(q % plan.f))).count();
    chunks(plan).any(|cells| missing(cells) > PARITY)
}
