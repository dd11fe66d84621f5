//! The listing program of document 01, as a text.

use crate::tag::{Name, Repeats};
use crate::{af, tag, Answer};

/// The listing's only container.
const CONTAINER: &Name = b"fio_";

/// What the listing program prints of its input.
pub fn listing(input: &[u8]) -> String {
    lines(input).unwrap_or_else(|number| format!("refused {number}\n"))
}

/// SEQ, revision and LEN; then depth, name and bits of each item; last the outer padding bytes.
fn lines(input: &[u8]) -> Answer<String> {
    let header = af::check(input)?;
    let (items, padding) = tag::walk(CONTAINER, af::payload(input), Repeats::Forbidden)?;
    let mut text = format!("af {} 1.{} {}\n", header.seq, header.minor, header.len);
    for walked in items {
        let name = u32::from_be_bytes(walked.item.name);
        text += &format!("{} {:08x} {}\n", walked.depth, name, walked.item.bits);
    }
    Ok(text + &format!("pad {padding}\n"))
}
