//! The sender: plan, endure, fragment, fragments.

use card::{raw, sender};
use reference::code::PARITY;
use reference::endurance::{endure as expected_endure, Endurance};
use reference::plan::{
    header_length, plan as expected_plan, Plan, Rule, Settings, MOST_FRAGMENTS, MOST_MTU,
};
use reference::sender::{fragment as expected_fragment, fragments as expected_fragments, Sent};

use crate::af::{packet, wrong_packet};
use crate::rng::Rng;
use crate::tally::{due, hex, number_of, told, Judge, Tally};

/// The calls that show the newer rule: many settings are cut alike by both.
const OTHERWISE: &str = "granted that the older rule would cut otherwise";
/// The plans that assure fewer losses than the sender is set for.
const FEWER: &str = "granted that assure 4 losses at m 5";
/// The cuts that stand losses which their plan does not assure.
const MORE: &str = "granted that stand more losses than the plan assures";
/// Those of them that are set for no loss.
const UNASKED: &str = "granted that stand a loss at m 0";
/// The cuts where it matters that not all fragments have as much of a chunk.
const UNLIKE: &str = "granted that stand more than by the greatest share alone";
/// The cuts without FEC, which stand no loss.
const PLAIN: &str = "granted without FEC";

/// Whether the older rule cuts a packet of l bytes otherwise; where f is the same, so is all else
/// of the fragments.
pub fn cut_otherwise(settings: &Settings, l: usize) -> bool {
    let f = |rule| expected_plan(&Settings { rule, ..*settings }, l).map(|plan| plan.f);
    f(settings.rule) != f(Rule::Older)
}

/// Settings in their bounds for packets of about l bytes, and at times any.
pub fn settings(rng: &mut Rng, l: usize) -> Settings {
    let fec = rng.chance(65);
    let address = rng.chance(40).then(|| address(rng));
    let h = header_length(fec, address.is_some());
    let m = if fec { rng.below(6) } else { 0 };
    let mtu = match rng.below(10) {
        0..3 => 1_400,
        3..6 => h + rng.within(2, 300),
        6..9 => h + 1 + l / rng.within(1, 40),
        _ => rng.within(h + 1, MOST_MTU),
    };
    Settings { fec, m, mtu, address, rule: rng.pick(&[Rule::Older, Rule::Newer]) }
}

/// Settings that cannot be, for the most part.
fn wrong_settings(rng: &mut Rng, l: usize) -> Settings {
    let mut settings = settings(rng, l);
    let h = header_length(settings.fec, settings.address.is_some());
    match rng.below(4) {
        0 => settings.m = rng.pick(&[6, 7, 255, 256, usize::MAX]),
        1 => settings = Settings { fec: false, m: rng.within(1, 5), ..settings },
        2 => settings.mtu = rng.within(0, h),
        _ => settings.mtu = rng.pick(&[MOST_MTU + 1, 65_536 + 1_400, usize::MAX]),
    }
    settings
}

fn any_settings(rng: &mut Rng, l: usize) -> Settings {
    if rng.chance(93) {
        settings(rng, l)
    } else {
        wrong_settings(rng, l)
    }
}

pub fn address(rng: &mut Rng) -> reference::plan::Address {
    let end = |rng: &mut Rng| rng.pick(&[0, 1, 2, 0x1234, 0xFFFF]);
    reference::plan::Address { source: end(rng), dest: end(rng) }
}

/// An address for the typed calls.
pub fn typed_address(address: Option<reference::plan::Address>) -> Option<sender::Address> {
    address.map(|pair| sender::Address { source: pair.source, dest: pair.dest })
}

/// Settings for the typed calls.
pub fn typed_settings(settings: &Settings) -> sender::Settings {
    let Settings { fec, m, mtu, address, rule } = *settings;
    let rule = match rule {
        Rule::Older => sender::Rule::Older,
        Rule::Newer => sender::Rule::Newer,
    };
    sender::Settings { fec, m, mtu, address: typed_address(address), rule }
}

/// An address as the calls take it; without one, source and dest may be any.
pub fn pair(rng: &mut Rng, address: Option<reference::plan::Address>) -> (usize, u16, u16) {
    let any = (rng.flag(false), rng.short(), rng.short());
    address.map_or(any, |pair| (rng.flag(true), pair.source, pair.dest))
}

/// Numbers of two bytes each.
fn shorts(figures: &[usize]) -> Vec<u8> {
    figures.iter().flat_map(|figure| (*figure as u16).to_be_bytes()).collect()
}

/// The length of a packet to be planned: at times that of none.
fn some_length(rng: &mut Rng) -> usize {
    match rng.below(100) {
        0..5 => rng.within(0, 11),
        5..10 => rng.pick(&[8_193, 8_194, 65_536, usize::MAX]),
        10..60 => rng.within(12, 8_192),
        _ => 12 + rng.length(8_180),
    }
}

pub fn plan(rng: &mut Rng, tally: &mut Tally) {
    let l = some_length(rng);
    let (settings, before) = (any_settings(rng, l.min(8_192)), rng.room(raw::TOLD_PLAN));
    let (fec, addressed) = (rng.flag(settings.fec), rng.flag(settings.address.is_some()));
    let (newer, mut after) = (rng.flag(settings.rule == Rule::Newer), before.clone());
    let number = raw::plan(fec, settings.m, newer, settings.mtu, addressed, l, &mut after);
    let typed = sender::plan(&typed_settings(&settings), l).map_err(|refused| refused.0);
    let expected = expected_plan(&settings, l);

    let mut judge = Judge::default();
    let shown = |p: Plan| [p.c, p.k, p.z, p.n, p.h, p.most, p.total, p.f, p.s, p.losses];
    let fewer = expected.is_ok_and(|plan| plan.losses < settings.m);
    let expected = expected.map(shown);
    let due = due(&expected, &before, raw::TOLD_PLAN);
    judge.same("number", number, number_of(&due));
    let line = due.map_or(before.clone(), |figures| told(&before, &shorts(figures)));
    judge.bytes("told", &after, &line);
    tally.note(OTHERWISE, due.is_ok() && cut_otherwise(&settings, l));
    tally.note(FEWER, due.is_ok() && fewer);
    let typed = typed.map(|p| [p.c, p.k, p.z, p.n, p.h, p.most, p.total, p.f, p.s, p.losses]);
    judge.same("typed", typed.map(|p| p.map(usize::from)), expected);
    tally.count(number, judge, || {
        let flags = format!("fec={fec} newer={newer} addressed={addressed}");
        format!("{flags} {settings:?} l={l} told={}", hex(&before))
    });
}

/// What is told of an endurance: w and f, and a flag for each of 256 fragments.
fn bytes_of(endured: &Endurance) -> Vec<u8> {
    let flags = (0..MOST_FRAGMENTS).map(|i| u8::from(endured.lost.contains(&i)));
    shorts(&[endured.most, endured.f]).into_iter().chain(flags).collect()
}

/// What the typed call tells, as the reference does.
fn counted(endured: sender::Endurance) -> Endurance {
    let lost = (0..MOST_FRAGMENTS).filter(|i| endured.lost[*i]).collect();
    Endurance { most: endured.most.into(), f: endured.f.into(), lost }
}

pub fn endure(rng: &mut Rng, tally: &mut Tally) {
    let l = some_length(rng);
    let (settings, before) = (any_settings(rng, l.min(8_192)), rng.room(raw::TOLD_ENDURE));
    let (fec, addressed) = (rng.flag(settings.fec), rng.flag(settings.address.is_some()));
    let (newer, mut after) = (rng.flag(settings.rule == Rule::Newer), before.clone());
    let number = raw::endure(fec, settings.m, newer, settings.mtu, addressed, l, &mut after);
    let typed = sender::endure(&typed_settings(&settings), l).map_err(|refused| refused.0);
    let expected = expected_endure(&settings, l);

    let mut judge = Judge::default();
    let due = due(&expected, &before, raw::TOLD_ENDURE);
    judge.same("number", number, number_of(&due));
    let line = due.map_or(before.clone(), |endured| told(&before, &bytes_of(endured)));
    judge.bytes("told", &after, &line);
    let share = |plan: Plan| plan.n.div_ceil(plan.f);
    let (plan, stood) = (expected_plan(&settings, l), due.map_or(0, |endured| endured.most));
    tally.note(OTHERWISE, due.is_ok() && cut_otherwise(&settings, l));
    tally.note(MORE, plan.is_ok_and(|plan| stood > plan.losses));
    tally.note(UNASKED, stood > 0 && settings.m == 0);
    tally.note(UNLIKE, plan.is_ok_and(|plan| stood * share(plan) > PARITY));
    tally.note(PLAIN, due.is_ok() && !settings.fec);
    judge.same("typed", typed.map(counted), expected);
    tally.count(number, judge, || {
        let flags = format!("fec={fec} newer={newer} addressed={addressed}");
        format!("{flags} {settings:?} l={l} told={}", hex(&before))
    });
}

/// A packet to be cut: short for the most part, and at times not one.
fn some_packet(rng: &mut Rng) -> Vec<u8> {
    let l = match rng.below(1_000) {
        0..600 => rng.within(12, 207),
        600..850 => rng.within(208, 1_000),
        850..950 => rng.within(1_001, 3_000),
        _ => rng.within(3_001, 8_192),
    };
    if rng.chance(80) {
        packet(rng, l)
    } else {
        wrong_packet(rng, l)
    }
}

pub fn fragment(rng: &mut Rng, tally: &mut Tally) {
    let packet = some_packet(rng);
    let (settings, pseq) = (any_settings(rng, packet.len()), rng.short());
    let plan = expected_plan(&settings, packet.len());
    let f = plan.map_or(1, |plan| plan.f);
    let index = if rng.chance(92) { rng.below(f) } else { rng.pick(&[f, f + 1, 256, usize::MAX]) };
    let needed = plan.map_or(0, |plan| plan.h + if index < f { plan.payload(index) } else { 0 });
    let (before, told_before) = (rng.room(needed), rng.room(raw::TOLD_FRAGMENT));
    let (mut out, mut typed_out, mut expected_out) =
        (before.clone(), before.clone(), before.clone());
    let (fec, (addressed, source, dest)) = (rng.flag(settings.fec), pair(rng, settings.address));
    let (m, mtu, mut after) = (settings.m, settings.mtu, told_before.clone());
    let newer = rng.flag(settings.rule == Rule::Newer);
    let number = raw::fragment(
        fec, m, newer, mtu, addressed, source, dest, pseq, &packet, index, &mut after, &mut out,
    );
    let typed = sender::fragment(&typed_settings(&settings), pseq, &packet, index, &mut typed_out);
    let expected = expected_fragment(&settings, pseq, &packet, index, &mut expected_out);

    let mut judge = Judge::default();
    let due = due(&expected, &told_before, raw::TOLD_FRAGMENT);
    judge.same("number", number, number_of(&due));
    let line = due.map_or(told_before.clone(), |length| told(&told_before, &shorts(&[*length])));
    judge.bytes("told", &after, &line);
    tally.note(OTHERWISE, due.is_ok() && cut_otherwise(&settings, packet.len()));
    judge.bytes("out", &out, if due.is_ok() { &expected_out } else { &before });
    judge.same("typed", typed.map_err(|refused| refused.0), expected);
    judge.bytes("typed out", &typed_out, &expected_out);
    tally.count(number, judge, || {
        let (packet, told, out) = (hex(&packet), hex(&told_before), hex(&before));
        let pair = format!("addressed={addressed} source={source} dest={dest}");
        let flags = format!("fec={fec} newer={newer} {settings:?} {pair}");
        format!("{flags} number={pseq} packet={packet} index={index} told={told} out={out}")
    });
}

pub fn fragments(rng: &mut Rng, tally: &mut Tally) {
    let packet = some_packet(rng);
    let (settings, pseq) = (any_settings(rng, packet.len()), rng.short());
    let needed = expected_plan(&settings, packet.len())
        .map_or(0, |plan| plan.f * plan.h + (plan.f - 1) * plan.s + plan.payload(plan.f - 1));
    let (before, told_before) = (rng.room(needed), rng.room(raw::TOLD_FRAGMENTS));
    let (mut out, mut typed_out, mut expected_out) =
        (before.clone(), before.clone(), before.clone());
    let (fec, (addressed, source, dest)) = (rng.flag(settings.fec), pair(rng, settings.address));
    let (m, mtu, mut after) = (settings.m, settings.mtu, told_before.clone());
    let newer = rng.flag(settings.rule == Rule::Newer);
    let number = raw::fragments(
        fec, m, newer, mtu, addressed, source, dest, pseq, &packet, &mut after, &mut out,
    );
    let typed = sender::fragments(&typed_settings(&settings), pseq, &packet, &mut typed_out);
    let expected = expected_fragments(&settings, pseq, &packet, &mut expected_out);

    let mut judge = Judge::default();
    let due = due(&expected, &told_before, raw::TOLD_FRAGMENTS);
    judge.same("number", number, number_of(&due));
    let shown = |sent: &Sent| shorts(&[sent.f, sent.h, sent.s, sent.last]);
    let line = due.map_or(told_before.clone(), |sent| told(&told_before, &shown(sent)));
    judge.bytes("told", &after, &line);
    tally.note(OTHERWISE, due.is_ok() && cut_otherwise(&settings, packet.len()));
    judge.bytes("out", &out, if due.is_ok() { &expected_out } else { &before });
    let typed = typed.map(|t| Sent { f: t.f, h: t.h, s: t.s, last: t.last });
    judge.same("typed", typed.map_err(|refused| refused.0), expected);
    judge.bytes("typed out", &typed_out, &expected_out);
    tally.count(number, judge, || {
        let (packet, told, out) = (hex(&packet), hex(&told_before), hex(&before));
        let pair = format!("addressed={addressed} source={source} dest={dest}");
        let flags = format!("fec={fec} newer={newer} {settings:?} {pair}");
        format!("{flags} number={pseq} packet={packet} told={told} out={out}")
    });
}
