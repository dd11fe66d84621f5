//! Document 02, Item 10, "Bandwidth readout for the monitor receiver".

use reference::bandwidth::{figure, read, units, write, Record, FIGURE, WIDTH};
use reference::tag::Repeats;
use reference::{number, Answer};

const WORDS: [Repeats; 2] = [Repeats::Forbidden, Repeats::Allowed];
const PASSES_END: &[u8] = b"past\0\0\0\x11\0\0";
const BAD_POINTER: &[u8] = b"*ptr\0\0\0\x3FAAAA\0\0\0\0";
const OTHER: &[u8] = b"abc_\0\0\0\x10\x0A\x00";
const NONE: &[u8] = b"rbw_\0\0\0\0";

/// An item "rbw_" of so many bits, whose bytes are those of 4.5 over and over.
fn item(bits: u32) -> Vec<u8> {
    let value: Vec<u8> = [0x04, 0x80].into_iter().cycle().take(bits.div_ceil(8) as usize).collect();
    [b"rbw_", &bits.to_be_bytes()[..], &value].concat()
}

/// The item of n / 256.
fn sent(n: u16) -> Vec<u8> {
    [b"rbw_\0\0\0\x10", &n.to_be_bytes()[..]].concat()
}

/// A reading by the float's pattern, which tells minus zero from zero.
fn pattern(packet: &[u8], standing: &[u8], repeats: Repeats) -> Answer<Option<u32>> {
    read(packet, standing, repeats).map(|float| float.map(f32::to_bits))
}

/// The item written of a pattern, with one byte of room more than it takes.
fn item_of(pattern: u32) -> Answer<Vec<u8>> {
    let mut out = [0xEE; 11];
    let length = write(Some(f32::from_bits(pattern)), &mut out)?;
    assert_eq!((length, out[10]), (10, 0xEE));
    Ok(out[..length].to_vec())
}

/// Whether a float is a figure, by its product with 256: a power of two, so nothing is rounded but
/// what is beyond all figures.
fn is_multiple(float: f32) -> bool {
    let product = float * 256.0;
    float.is_sign_positive() && product.trunc() == product && product <= 65_535.0
}

#[test]
fn rows_of_figures() {
    let rows = [
        (0x0000, 0x0000_0000),
        (0x0001, 0x3B80_0000),
        (0x0100, 0x3F80_0000),
        (0x0480, 0x4090_0000),
        (0x0A00, 0x4120_0000),
        (0xFFFF, 0x437F_FF00),
    ];
    for (n, float) in rows {
        assert_eq!(pattern(&sent(n), &[], Repeats::Forbidden), Ok(Some(float)));
        assert_eq!(item_of(float), Ok(sent(n)));
    }
}

/// "Exactly equal to the sent figure for all 65,536 values", by a float's division and by Byte1 +
/// Byte2 / 256 in a wider one; "a written figure reads as itself".
#[test]
fn all_figures_are_exact_and_read_as_themselves() {
    for n in 0..=u16::MAX {
        let [whole, parts] = n.to_be_bytes();
        assert_eq!(figure(n).to_bits(), (f32::from(n) / 256.0).to_bits());
        assert_eq!(f64::from(figure(n)), f64::from(whole) + f64::from(parts) / 256.0);
        assert_eq!(units(figure(n)), Some(n));
        let written = item_of(figure(n).to_bits()).unwrap();
        assert_eq!(pattern(&written, &[], Repeats::Forbidden), Ok(Some(figure(n).to_bits())));
    }
}

/// A figure has 16 binary digits at the most, so the last 8 of its pattern are zeros.
#[test]
fn no_other_float_is_a_figure() {
    let mut figures = 0;
    for float in (0..1 << 24).map(|top: u32| f32::from_bits(top << 8)) {
        assert_eq!(units(float).is_some(), is_multiple(float), "{:08x}", float.to_bits());
        figures += usize::from(units(float).is_some());
    }
    assert_eq!(figures, 65_536);
    for pattern in (0..=u16::MAX).map(|n| figure(n).to_bits()) {
        let beside = [pattern.wrapping_sub(1), pattern + 1, pattern + 128, pattern | 1 << 31];
        for float in beside.map(f32::from_bits) {
            assert_eq!(units(float), None, "{:08x}", float.to_bits());
            assert!(!is_multiple(float), "{:08x}", float.to_bits());
        }
    }
}

#[test]
fn what_is_no_figure_is_61_before_room() {
    let minus = [0x8000_0000, 0xBF80_0000, 0xBB80_0000, 0xFF80_0000, 0xFFC0_0000];
    let plus = [0x3B00_0000, 0x4380_0000, 0x437F_FF80, 0x3DCC_CCCD, 0x0000_0001];
    let last = [0x7F7F_FFFF, 0x7F80_0000, 0x7F80_0001, 0x7FC0_0000];
    for float in [&minus[..], &plus, &last].concat().into_iter().map(f32::from_bits) {
        for room in [0, 9, 10, 32] {
            let mut out = vec![0xEE; room];
            assert_eq!(write(Some(float), &mut out), Err(FIGURE), "{float}");
            assert_eq!(out, vec![0xEE; room]);
        }
    }
}

#[test]
fn an_item_takes_10_bytes_and_8_without_a_figure() {
    for (float, due) in [(Some(4.5), sent(0x0480)), (None, NONE.to_vec())] {
        for room in 0..12 {
            let mut out = vec![0xEE; room];
            let written = write(float, &mut out);
            if room < due.len() {
                assert_eq!((written, out), (Err(number::ROOM), vec![0xEE; room]));
            } else {
                assert_eq!((written, &out[..due.len()]), (Ok(due.len()), &due[..]));
                assert_eq!(out[due.len()..], [0xEE; 4][..room - due.len()]);
            }
        }
    }
}

#[test]
fn another_bit_length_is_60() {
    for bits in (0..=300).chain([65_536, 65_552]) {
        let due = match bits {
            0 => Ok(None),
            16 => Ok(Some(0x4090_0000)),
            _ => Err(WIDTH),
        };
        for (packet, standing) in [(item(bits), sent(1)), (OTHER.to_vec(), item(bits))] {
            assert_eq!(pattern(&packet, &standing, Repeats::Forbidden), due, "{bits} bits");
        }
    }
}

/// "Refusals, after the TAG codes": both packets are checked whole before the item's bits are.
#[test]
fn what_finding_refuses_comes_before_60() {
    for repeats in WORDS {
        for sound in [item(8), sent(1), NONE.to_vec()] {
            for (fault, due) in [(PASSES_END, number::OVERRUN), (BAD_POINTER, number::PTR)] {
                assert_eq!(read(&[&sound, fault].concat(), &[], repeats), Err(due));
                assert_eq!(read(&sound, fault, repeats), Err(due));
            }
        }
        assert_eq!(read(PASSES_END, BAD_POINTER, repeats), Err(number::OVERRUN));
        assert_eq!(read(BAD_POINTER, PASSES_END, repeats), Err(number::PTR));
    }
    for packet in [&b""[..], OTHER, b"rbw-\0\0\0\0", b"cont\0\0\0\x40rbw_\0\0\0\0"] {
        assert_eq!(read(packet, packet, Repeats::Forbidden), Err(number::ABSENT));
    }
}

#[test]
fn the_first_item_decides() {
    let (four, ten) = (Ok(Some(0x4090_0000)), Ok(Some(0x4120_0000)));
    let rows = [
        (sent(0x0480), four),
        (sent(0x0A00), ten),
        (NONE.to_vec(), Ok(None)),
        (item(15), Err(WIDTH)),
    ];
    for (first, due) in &rows {
        for (second, _) in &rows {
            let both = [&first[..], second].concat();
            for repeats in WORDS {
                assert_eq!(pattern(first, second, repeats), *due);
            }
            assert_eq!(pattern(&both, &[], Repeats::Allowed), *due);
            assert_eq!(pattern(OTHER, &both, Repeats::Allowed), *due);
            for (packet, standing) in [(&both[..], &[][..]), (first, &both), (&[], &both)] {
                assert_eq!(pattern(packet, standing, Repeats::Forbidden), Err(number::TWICE));
            }
        }
    }
}

/// "'Not available' or a refusal leaves all three as they stood."
#[test]
fn a_record_keeps_last_widest_and_narrowest() {
    let rows = [
        (sent(0x0480), [0x4090_0000, 0x4090_0000, 0x4090_0000]),
        (NONE.to_vec(), [0x4090_0000, 0x4090_0000, 0x4090_0000]),
        (item(8), [0x4090_0000, 0x4090_0000, 0x4090_0000]),
        (sent(0x0A00), [0x4120_0000, 0x4120_0000, 0x4090_0000]),
        (sent(0x0001), [0x3B80_0000, 0x4120_0000, 0x3B80_0000]),
    ];
    let mut record = Record::default();
    for (packet, due) in rows {
        record = record.after(read(&packet, &[], Repeats::Forbidden));
        let shown = [record.last, record.widest, record.narrowest].map(f32::to_bits);
        assert_eq!((shown, record.any), (due, true));
    }
}

/// What has come so far, held against the record by its n.
#[test]
fn a_record_is_that_of_all_figures_that_came() {
    let (mut record, mut come) = (Record::default(), Vec::new());
    for turn in 0..10_000u32 {
        let n = (turn.wrapping_mul(2_654_435_761) >> 16) as u16;
        let (reading, counts) = match turn % 7 {
            0 => (Ok(None), false),
            3 => (Err([number::OVERRUN, number::ABSENT, WIDTH][turn as usize % 3]), false),
            _ => (Ok(Some(figure(n))), true),
        };
        record = record.after(reading);
        come.extend(counts.then_some(n));
        let last = come.last().copied().map_or(0.0, figure);
        let widest = come.iter().max().copied().map_or(0.0, figure);
        let narrowest = come.iter().min().copied().map_or(0.0, figure);
        assert_eq!(record, Record { last, widest, narrowest, any: !come.is_empty() });
    }
}

/// A first figure takes the place of whatever stands in a record to which none has come; zeros of
/// either sign are neither wider nor narrower than each other.
#[test]
fn a_record_compares_floats_and_not_patterns() {
    let stale = Record { last: -1.0, widest: f32::INFINITY, narrowest: f32::MIN, any: false };
    let four = Record { last: 4.5, widest: 4.5, narrowest: 4.5, any: true };
    assert_eq!(stale.after(Ok(None)), stale);
    assert_eq!(stale.after(Err(WIDTH)), stale);
    assert_eq!(stale.after(Ok(Some(4.5))), four);
    let minus = Record { last: -0.0, widest: -0.0, narrowest: -0.0, any: true };
    let after = minus.after(Ok(Some(0.0)));
    let shown = [after.last, after.widest, after.narrowest].map(f32::to_bits);
    assert_eq!(shown, [0, 1 << 31, 1 << 31]);
    let below = Record { last: -1.0, widest: -1.0, narrowest: -1.0, any: true };
    assert_eq!(below.after(Ok(Some(4.5))), Record { narrowest: -1.0, ..four });
}
