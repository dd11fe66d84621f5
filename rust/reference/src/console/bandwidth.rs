//! The questions on the bandwidth of item "rbw_". A float is told by its four bytes.

use super::hex;
use super::words::{buffer, bytes};
use crate::bandwidth::{read, write, Record};
use crate::tag::Repeats;
use crate::Answer;

pub fn answer(words: &[&str]) -> Option<Answer<String>> {
    match words {
        ["rbw", packet, standing] | ["rbw", packet, standing, "once"] => {
            show_reading(packet, standing, Repeats::Forbidden)
        }
        ["rbw", packet, standing, "repeat"] => show_reading(packet, standing, Repeats::Allowed),
        ["rbwitem", float, room] => {
            let (float, mut out) = (float_or_none(float)?, buffer(room)?);
            let written = write(float, &mut out);
            Some(written.map(|length| format!("item {}", hex(&out[..length]))))
        }
        ["rbwseen", before, packet, standing] => {
            let (before, packet, standing) = (record(before)?, bytes(packet)?, bytes(standing)?);
            let after = before.after(read(&packet, &standing, Repeats::Forbidden));
            Some(Ok(format!("seen {}", show_record(&after))))
        }
        _ => None,
    }
}

/// A float of any kind, `-` for none.
fn float_or_none(word: &str) -> Option<Option<f32>> {
    if word == "-" {
        return Some(None);
    }
    let pattern: [u8; 4] = bytes(word)?.try_into().ok()?;
    Some(Some(f32::from_be_bytes(pattern)))
}

/// A record of 13 bytes: three floats, each a number, and 0 or 1.
fn record(word: &str) -> Option<Record> {
    let bytes: [u8; 13] = bytes(word)?.try_into().ok()?;
    let float = |at: usize| {
        let float = f32::from_be_bytes([bytes[at], bytes[at + 1], bytes[at + 2], bytes[at + 3]]);
        (!float.is_nan()).then_some(float)
    };
    let any = match bytes[12] {
        0 => false,
        1 => true,
        _ => return None,
    };
    Some(Record { last: float(0)?, widest: float(4)?, narrowest: float(8)?, any })
}

fn show_reading(packet: &str, standing: &str, repeats: Repeats) -> Option<Answer<String>> {
    let reading = read(&bytes(packet)?, &bytes(standing)?, repeats);
    Some(reading.map(|float| match float {
        Some(float) => format!("width {}", hex(&float.to_be_bytes())),
        None => "notavailable".to_string(),
    }))
}

fn show_record(record: &Record) -> String {
    let floats = [record.last, record.widest, record.narrowest].map(f32::to_be_bytes);
    hex(&[&floats.concat()[..], &[u8::from(record.any)]].concat())
}
