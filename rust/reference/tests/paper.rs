//! What documents 01 and 02 say that a line of the console does not show.

use reference::endurance::{endure, Endurance};
use reference::plan::{plan, Plan, Rule, Settings, HOUSE, TWO_LOSSES};
use reference::receiver::{Kept, Received, Table, LENT};
use reference::{af, crc, field, number, sender, tag};

const LENGTH: usize = 415;

/// An AF packet of l bytes.
fn packet(l: usize) -> Vec<u8> {
    let payload: Vec<u8> = (0..l - 12).map(|at| (at * at + l) as u8).collect();
    let mut packet = vec![0; l];
    assert_eq!(af::wrap(7, true, &payload, &mut packet), Ok(l));
    packet
}

/// Settings for m losses by document 001's rule.
fn newer(m: usize) -> Settings {
    Settings { m, rule: Rule::Newer, ..HOUSE }
}

/// The fragments of a packet under number 9.
fn cut(settings: &Settings, packet: &[u8]) -> Vec<Vec<u8>> {
    let mut out = vec![0; 32_768];
    let f = plan(settings, packet.len()).unwrap().f;
    let mut one = |i| {
        let length = sender::fragment(settings, 9, packet, i, &mut out).unwrap();
        out[..length].to_vec()
    };
    (0..f).map(&mut one).collect()
}

/// A receiver with all that is lent to it.
#[derive(Clone, Debug, PartialEq)]
struct Desk {
    table: Table,
    lent: Vec<u8>,
    out: Vec<u8>,
}

impl Desk {
    fn new() -> Desk {
        Desk { table: Table::fresh(), lent: vec![0xA5; LENT], out: vec![0x5A; 9_000] }
    }

    fn take(&mut self, datagram: &[u8]) -> Result<Received, u8> {
        self.table.receive(None, &mut self.lent, datagram, &mut self.out)
    }
}

fn kept(kept: Kept) -> Result<Received, u8> {
    Ok(Received { kept, displaced: None })
}

#[test]
fn the_residue_is_1d0f() {
    for data in [&b""[..], b"PF", b"123456789"] {
        let whole = [data, &crc::sent(data).to_be_bytes()].concat();
        assert_eq!(crc::register(&whole), crc::RESIDUE);
    }
}

#[test]
fn quotients_and_logarithms_undo() {
    for a in 0..=255 {
        for b in 1..=255 {
            assert_eq!(field::quotient(field::product(a, b), b), Ok(a));
        }
    }
    for l in 0..255 {
        assert_eq!(field::logarithm(field::power(l.into())), Ok(l));
    }
}

#[test]
fn starred_rows() {
    let with = |m, l| plan(&Settings { m, ..HOUSE }, l).unwrap();
    let without = |l| plan(&Settings { fec: false, m: 0, ..HOUSE }, l).unwrap();
    let chunks = |plan: Plan| (plan.c, plan.k, plan.z);
    assert_eq!(chunks(with(2, 207)), (1, 207, 0));
    assert_eq!(chunks(with(2, 208)), (2, 104, 0));
    assert_eq!(chunks(with(2, 12)), (1, 12, 0));
    assert_eq!((with(5, 414).f, with(5, 414).s), (32, 16));
    assert_eq!((chunks(with(2, 415)), with(2, 415).f, with(2, 415).s), ((3, 139, 2), 12, 47));
    let longest = |settings| {
        let plan = plan(&settings, 8_192).unwrap();
        (chunks(plan), plan.f, plan.s, plan.losses)
    };
    assert_eq!(longest(TWO_LOSSES), ((40, 205, 8), 16, 633, 2));
    assert_eq!(longest(HOUSE), ((40, 205, 8), 11, 920, 1)); // document 02, Item 5
    assert_eq!(without(1_386).f, 1);
    assert_eq!((without(1_387).f, without(1_387).s, without(1_387).payload(1)), (2, 694, 693));
    assert_eq!((field::power(8), field::power(9)), (29, 58));
}

/// Document 02, Item 6, at MTU 1,400: f, s and the losses assured for m from 1 to 5.
#[test]
fn rows_of_the_newer_rule() {
    let rows = [
        (12, [(2, 30), (3, 20), (4, 15), (5, 12), (7, 9)], 5),
        (207, [(6, 43), (11, 24), (16, 16), (22, 12), (29, 9)], 5),
        (208, [(4, 76), (7, 44), (10, 31), (13, 24), (16, 19)], 4),
        (414, [(6, 85), (11, 47), (16, 32), (22, 24), (27, 19)], 4),
        (415, [(4, 141), (8, 71), (12, 47), (16, 36), (21, 27)], 4),
        (8_192, [(8, 1_265), (11, 920), (16, 633), (22, 460), (27, 375)], 4),
    ];
    for (l, sizes, at_five) in rows {
        for (m, ((f, s), assured)) in (1..).zip(sizes.into_iter().zip([1, 2, 3, 4, at_five])) {
            let plan = plan(&newer(m), l).unwrap();
            assert_eq!((plan.f, plan.s, plan.losses), (f, s, assured), "l {l} m {m}");
        }
    }
    let short = |mtu, l| plan(&Settings { mtu, ..newer(5) }, l);
    let shown = |plan: Plan| (plan.most, plan.f, plan.s, plan.losses);
    assert_eq!(short(30, 414).map(shown), Ok((14, 37, 14, 4)));
    assert_eq!(short(56, 8_192).map(shown), Ok((40, 253, 40, 4)));
    assert_eq!(short(55, 8_192), Err(number::TOOMANY));
}

/// Document 02, Item 6: with m 0 both rules cut alike, and each refusal is that of the older one.
#[test]
fn what_the_rule_does_not_change() {
    let both = |settings: Settings, l| {
        let older = plan(&Settings { rule: Rule::Older, ..settings }, l);
        assert_eq!(plan(&Settings { rule: Rule::Newer, ..settings }, l), older);
        older
    };
    let without = Settings { fec: false, m: 0, ..HOUSE };
    let shown = |plan: Plan| (plan.f, plan.s, plan.losses);
    assert_eq!(both(without, 1_387).map(shown), Ok((2, 694, 0)));
    assert_eq!(both(Settings { m: 0, ..HOUSE }, 8_192).map(shown), Ok((8, 1_265, 0)));
    assert_eq!(both(Settings { m: 6, ..HOUSE }, 414), Err(number::SETTINGS));
    assert_eq!(both(Settings { m: 1, ..without }, 414), Err(number::SETTINGS));
    assert_eq!(both(HOUSE, 11), Err(number::AF_SHORT));
    assert_eq!(both(HOUSE, 8_193), Err(number::AF_LENGTH));
}

/// Counted by document 02, Item 12, at MTU 1,400: the losses stood for m from 0 to 5, and at shorter
/// MTUs f too. At m 0 the two rules are the same.
#[test]
fn rows_of_the_losses_stood() {
    let rows = [
        (Rule::Older, 12, [0, 2, 3, 4, 5, 6]),
        (Rule::Older, 207, [0, 2, 3, 4, 5, 6]),
        (Rule::Older, 208, [0, 2, 3, 4, 4, 6]),
        (Rule::Older, 414, [0, 2, 3, 4, 4, 6]),
        (Rule::Older, 415, [0, 2, 3, 4, 5, 6]),
        (Rule::Older, 8_192, [1, 2, 3, 4, 4, 6]),
        (Rule::Newer, 208, [0, 1, 2, 3, 4, 4]),
        (Rule::Newer, 415, [0, 1, 2, 3, 4, 5]),
        (Rule::Newer, 8_192, [1, 1, 2, 3, 4, 4]),
    ];
    for (rule, l, row) in rows {
        let stood = |m| endure(&Settings { m, rule, ..HOUSE }, l).unwrap().most;
        assert_eq!([0, 1, 2, 3, 4, 5].map(stood), row, "{rule:?} l {l}");
    }
    let short = |mtu, l| endure(&Settings { mtu, ..newer(5) }, l).map(|cut| (cut.f, cut.most));
    assert_eq!(short(30, 414), Ok((37, 6)));
    assert_eq!(short(100, 8_192), Ok((121, 18)));
    assert_eq!(short(56, 8_192), Ok((253, 48)));
    assert_eq!(short(55, 8_192), Err(number::TOOMANY));
    let without = endure(&Settings { fec: false, m: 0, ..HOUSE }, 1_387);
    assert_eq!(without, Ok(Endurance { most: 0, f: 2, lost: vec![0] }));
}

/// l 415, m 2: any three lost still rebuild, no four do.
#[test]
fn three_lost_rebuild_and_no_four() {
    let packet = packet(LENGTH);
    let fragments = cut(&TWO_LOSSES, &packet);
    for lost in (0u32..1 << 12).filter(|lost| (3..=4).contains(&lost.count_ones())) {
        let mut desk = Desk::new();
        let come = (0..12).filter(|i| lost >> i & 1 == 0);
        let last = come.map(|i| desk.take(&fragments[i])).last();
        if lost.count_ones() == 4 {
            assert_eq!(last, Some(kept(Kept::Waits)));
        } else {
            assert_eq!(last, Some(kept(Kept::Delivered { length: LENGTH, missing: 3 })));
            assert_eq!(desk.out[..LENGTH], packet);
            assert!(desk.out[LENGTH..].iter().all(|byte| *byte == 0x5A));
        }
    }
}

/// What a receiver, which is not told the rule, answers to the last fragment that is not lost; a
/// packet that it hands out is the one that was cut.
fn last_answer(packet: &[u8], cut: &[Vec<u8>], lost: &[usize]) -> Option<Result<Received, u8>> {
    let mut desk = Desk::new();
    let come = (0..cut.len()).filter(|i| !lost.contains(i));
    let last = come.map(|i| desk.take(&cut[i])).last();
    if let Some(Ok(Received { kept: Kept::Delivered { length, .. }, .. })) = last {
        assert_eq!(&desk.out[..length], packet);
    }
    last
}

/// By the newer rule, l 415 and m from 1 to 4, and m 5 where c is 1: any m lost rebuild, and here
/// no more do.
#[test]
fn by_the_newer_rule_m_lost_rebuild_and_no_more() {
    for (l, m) in [(LENGTH, 1), (LENGTH, 2), (LENGTH, 3), (LENGTH, 4), (12, 5)] {
        let packet = packet(l);
        let fragments = cut(&newer(m), &packet);
        let f = fragments.len();
        for set in (0u32..1 << f).filter(|set| (m..=m + 1).contains(&(set.count_ones() as usize))) {
            let lost: Vec<usize> = (0..f).filter(|i| set >> i & 1 == 1).collect();
            let delivered = Kept::Delivered { length: l, missing: m };
            let due = if lost.len() == m { delivered } else { Kept::Waits };
            assert_eq!(last_answer(&packet, &fragments, &lost), Some(kept(due)));
        }
    }
}

/// l 414, m 5 by the newer rule: "five lost fragments can take 50 bytes of a chunk" of 255, which
/// has 9 bytes in each of 27 fragments and one more in 12 of them.
#[test]
fn five_lost_of_27_rebuild_at_times() {
    let packet = packet(414);
    let fragments = cut(&newer(5), &packet);
    let answer = |lost: &[usize]| last_answer(&packet, &fragments, lost);
    let delivered = |missing| Some(kept(Kept::Delivered { length: 414, missing }));
    assert_eq!(answer(&[0, 1, 2, 3, 4]), Some(kept(Kept::Waits)));
    assert_eq!(answer(&[12, 13, 14, 15, 16]), Some(kept(Kept::Waits)));
    assert_eq!(answer(&[0, 1, 12, 13, 24]), delivered(5));
    assert_eq!(answer(&[0, 1, 2, 3]), delivered(4));
    assert_eq!(answer(&[12, 13, 14, 15]), delivered(4));
}

/// Document 02, Item 12, by the receiver: it waits where the losing set is lost, and where any w in
/// a row are, it has the packet with the last fragment that comes, or had it before.
#[test]
fn the_losing_set_does_not_rebuild() {
    for (settings, l) in [(HOUSE, 207), (TWO_LOSSES, LENGTH), (newer(4), 208), (newer(5), 414)] {
        let (packet, waits) = (packet(l), Some(kept(Kept::Waits)));
        let (fragments, endured) = (cut(&settings, &packet), endure(&settings, l).unwrap());
        assert_eq!(last_answer(&packet, &fragments, &endured.lost), waits);
        for first in 0..endured.f {
            let lost: Vec<usize> = (0..endured.most).map(|i| (first + i) % endured.f).collect();
            match last_answer(&packet, &fragments, &lost) {
                Some(Ok(Received { kept: Kept::Delivered { .. }, .. }) | Err(number::LATE)) => {}
                other => panic!("{other:?} without {lost:?} of l {l}"),
            }
        }
    }
}

#[test]
fn refusals_leave_everything_and_13_keeps_the_fragment() {
    let fragments = cut(&TWO_LOSSES, &packet(LENGTH));
    let mut desk = Desk::new();
    for fragment in &fragments[..8] {
        assert_eq!(desk.take(fragment), kept(Kept::Waits));
    }
    let before = desk.clone();
    assert_eq!(desk.take(&fragments[3]), Err(number::REPEAT));
    assert_eq!(desk.take(&fragments[8][1..]), Err(number::SYNC));
    assert_eq!(desk, before);

    let mut wrong = fragments[8].clone();
    wrong[20] ^= 1;
    assert_eq!(desk.take(&wrong), kept(Kept::Damaged));
    assert_eq!(desk.out, before.out);
    assert_eq!(desk.lent[8 * 47..9 * 47], wrong[16..]);
    assert_eq!(desk.take(&fragments[9]), Err(number::SPOILED));
}

#[test]
fn a_record_out_of_range_is_14_before_all_else() {
    let fragments = cut(&TWO_LOSSES, &packet(LENGTH));
    let mut desk = Desk::new();
    assert_eq!(desk.take(&fragments[0]), kept(Kept::Waits));
    desk.table.places[0].as_mut().unwrap().fcount = 257;
    let before = desk.clone();
    assert_eq!(desk.take(&[]), Err(number::STATE));
    assert_eq!(desk.table.query(&[]), Err(number::STATE));
    assert_eq!(desk.table.clear(&[]), Err(number::STATE));
    assert_eq!(desk, before);
}

#[test]
fn what_is_written_takes_the_first_bytes_and_no_others() {
    let mut out = [0xEE; 12];
    assert_eq!(tag::write(*b"abc_", 12, &[0xAB, 0xCF], &mut out), Ok(10));
    assert_eq!(&out, b"abc_\x00\x00\x00\x0C\xAB\xC0\xEE\xEE");
    assert_eq!(tag::write(*b"abc_", 12, &[0xAB], &mut out), Err(number::BITS));
    assert_eq!(&out, b"abc_\x00\x00\x00\x0C\xAB\xC0\xEE\xEE");
}
