//! The questions on TAG items, and the listing's.

use super::hex;
use super::words::{any_number, buffer, bytes, decimal};
use crate::tag::{Found, Item, Name, Repeats, Walked};
use crate::{listing, tag, Answer};

/// The answer to a question on items; all but `item` and `list` may say in a last word whether
/// names repeat.
pub fn answer(words: &[&str]) -> Option<Answer<String>> {
    match words {
        ["item", name, bits, room, value] => {
            let (name, mut out, value) = (tag_name(name)?, buffer(room)?, bytes(value)?);
            let bits = decimal(bits, u32::MAX.into())? as u32;
            let written = tag::write(name, bits, &value, &mut out);
            Some(written.map(|length| format!("item {}", hex(&out[..length]))))
        }
        ["list", input] => {
            let text = listing::listing(&bytes(input)?);
            Some(Ok(format!("list {}", text.replace(' ', "_").replace('\n', "|"))))
        }
        [question @ .., "once"] => on_packet(question, Repeats::Forbidden),
        [question @ .., "repeat"] => on_packet(question, Repeats::Allowed),
        _ => on_packet(words, Repeats::Forbidden),
    }
}

/// A question on the items of a packet, without the word that says whether names repeat. Those in
/// `at` are asked as the others are, and tell of each item where it begins and its unused bits too.
fn on_packet(words: &[&str], repeats: Repeats) -> Option<Answer<String>> {
    match words {
        ["items", packet] => Some(show_items(&bytes(packet)?, repeats, |_| String::new())),
        ["itemsat", packet] => Some(show_items(&bytes(packet)?, repeats, begun)),
        ["find", name, packet, standing] => find(name, packet, standing, repeats, show_found),
        ["findat", name, packet, standing] => find(name, packet, standing, repeats, show_found_at),
        ["nth", name, number, packet] => nth(name, number, packet, repeats, show_found),
        ["nthat", name, number, packet] => nth(name, number, packet, repeats, show_found_at),
        ["walk", names, packet] => {
            Some(show_walk(&bytes(names)?, &bytes(packet)?, repeats, |_| String::new()))
        }
        ["walkat", names, packet] => {
            Some(show_walk(&bytes(names)?, &bytes(packet)?, repeats, begun))
        }
        _ => None,
    }
}

fn find(
    name: &str,
    packet: &str,
    standing: &str,
    repeats: Repeats,
    show: fn(&Found) -> String,
) -> Option<Answer<String>> {
    let (name, packet, standing) = (tag_name(name)?, bytes(packet)?, bytes(standing)?);
    Some(tag::find(name, &packet, &standing, repeats).map(|found| show(&found)))
}

fn nth(
    name: &str,
    number: &str,
    packet: &str,
    repeats: Repeats,
    show: fn(&Found) -> String,
) -> Option<Answer<String>> {
    let (name, number, packet) = (tag_name(name)?, any_number(number)?, bytes(packet)?);
    let item = tag::nth(name, number, &packet, repeats);
    Some(item.map(|item| show(&Found { standing: false, item })))
}

fn tag_name(word: &str) -> Option<Name> {
    bytes(word)?.try_into().ok()
}

fn show_found(found: &Found) -> String {
    format!("found {} {}", found.item.bits, hex(found.item.value))
}

fn show_found_at(found: &Found) -> String {
    let (holder, item) = (if found.standing { "standing" } else { "packet" }, &found.item);
    let (start, unused, bits) = (item.start, item.unused, item.bits);
    format!("found {holder} {start} {unused} {bits} {}", hex(item.value))
}

/// What stands before the name of an item in an answer that tells where it begins.
fn begun(item: &Item) -> String {
    format!("{}:{}:", item.start, item.unused)
}

fn show_items(packet: &[u8], repeats: Repeats, before: fn(&Item) -> String) -> Answer<String> {
    let (items, padding) = tag::items(packet, repeats)?;
    let mut text = "items ".to_string();
    for item in items {
        let (name, value) = (hex(&item.name), hex(item.value));
        text += &format!("{}{name}:{}:{value} ", before(&item), item.bits);
    }
    Ok(text + &format!("end {padding}"))
}

fn show_walk(
    names: &[u8],
    packet: &[u8],
    repeats: Repeats,
    before: fn(&Item) -> String,
) -> Answer<String> {
    let (items, padding) = tag::walk(names, packet, repeats)?;
    let mut text = "walk ".to_string();
    for Walked { depth, item } in items {
        text += &format!("{depth}:{}{}:{} ", before(&item), hex(&item.name), item.bits);
    }
    Ok(text + &format!("end {padding}"))
}
