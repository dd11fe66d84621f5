//! The questions of the console: from a line to an answer.

use crate::code::{Filling, MOST_DATA, PARITY};
use crate::endurance::{endure, Endurance};
use crate::plan::{Address, Rule, Settings, HOUSE, TWO_LOSSES};
use crate::receiver::{Condition, Kept, Received, Table};
use crate::{af, code, crc, field, number, plan, sender, Answer};

mod bandwidth;
mod items;
mod words;

use words::{
    address, any_number, buffer, bytes, decimal, element, flag, length, mask, settings, short,
    table_length, MOST_TABLE,
};

/// A line of so many characters is too long.
const TOO_LONG: usize = 66_048;

/// The table of the receiver and its bytes, which are all that stays from line to line.
pub struct Console {
    table: Table,
    lent: Vec<u8>,
}

impl Default for Console {
    fn default() -> Console {
        Console { table: Table::fresh(), lent: vec![0; MOST_TABLE] }
    }
}

impl Console {
    /// The answer to a line; an empty line and one that begins with # get none.
    pub fn answer(&mut self, line: &[u8]) -> Option<String> {
        if line.is_empty() || line[0] == b'#' {
            return None;
        }
        let known = if line.len() < TOO_LONG { self.known(line) } else { None };
        Some(known.unwrap_or_else(|| "unknown".to_string()))
    }

    /// The answer to a question, or nothing where the line is none.
    fn known(&mut self, line: &[u8]) -> Option<String> {
        let line = std::str::from_utf8(line).ok()?;
        let words: Vec<&str> = line.split(' ').collect();
        let answer = match words.first()? {
            &"fresh" | &"recv" | &"query" | &"clear" => self.on_receiver(&words)?,
            &"crc" | &"mul" | &"div" | &"log" | &"pow" => on_field(&words)?,
            &"parity" | &"fill" => on_chunks(&words)?,
            &"house" | &"twolosses" | &"plan" | &"endure" | &"fragment" | &"fragments" => {
                on_sender(&words)?
            }
            &"afcheck" | &"afwrap" => on_af(&words)?,
            &"rbw" | &"rbwitem" | &"rbwseen" => bandwidth::answer(&words)?,
            _ => items::answer(&words)?,
        };
        Some(answer.unwrap_or_else(|number| format!("refused {number}")))
    }

    fn on_receiver(&mut self, words: &[&str]) -> Option<Answer<String>> {
        match words {
            ["fresh"] => {
                self.table = Table::fresh();
                Some(Ok("ok".to_string()))
            }
            ["recv", pair, length, room, datagram] => {
                let (pair, datagram) = (address(pair)?, bytes(datagram)?);
                let (lent, mut out) = (&mut self.lent[..table_length(length)?], buffer(room)?);
                let answer = self.table.receive(pair, lent, &datagram, &mut out);
                Some(answer.map(|received| show_received(&received, &out)))
            }
            ["query", length] => {
                let lent = &self.lent[..table_length(length)?];
                Some(self.table.query(lent).map(|places| show_places(&places)))
            }
            ["clear", length] => {
                let lent = &self.lent[..table_length(length)?];
                Some(self.table.clear(lent).map(|()| "ok".to_string()))
            }
            _ => None,
        }
    }
}

fn on_field(words: &[&str]) -> Option<Answer<String>> {
    let value = match words {
        ["crc", data] => return Some(Ok(format!("crc {:04x}", crc::sent(&bytes(data)?)))),
        ["mul", a, b] => Ok(field::product(element(a)?, element(b)?)),
        ["div", a, b] => field::quotient(element(a)?, element(b)?),
        ["log", a] => field::logarithm(element(a)?),
        ["pow", exponent] => Ok(field::power(decimal(exponent, u64::MAX)?)),
        _ => return None,
    };
    Some(value.map(|value| format!("value {value}")))
}

fn on_chunks(words: &[&str]) -> Option<Answer<String>> {
    match words {
        ["parity", data] => {
            let parity = code::parity(&bytes(data)?).ok()?;
            Some(Ok(format!("parity {}", hex(&parity))))
        }
        ["fill", k, positions, chunk] => {
            let k = length(k, MOST_DATA)?;
            let missing = mask(positions, k + PARITY)?;
            let filling = code::fill(k, &bytes(chunk)?, &missing).ok()?;
            Some(Ok(show_filling(&filling)))
        }
        _ => None,
    }
}

fn on_sender(words: &[&str]) -> Option<Answer<String>> {
    match words {
        ["house"] => Some(Ok(show_settings(&HOUSE))),
        ["twolosses"] => Some(Ok(show_settings(&TWO_LOSSES))),
        [question @ .., "old"] => on_cut(question, Some(Rule::Older)),
        [question @ .., "new"] => on_cut(question, Some(Rule::Newer)),
        _ => on_cut(words, None),
    }
}

/// A question to the sender without its last word, which may name the rule; `plan` tells what is
/// assured where it does.
fn on_cut(words: &[&str], named: Option<Rule>) -> Option<Answer<String>> {
    let rule = named.unwrap_or(Rule::Older);
    match words {
        ["plan", fec, m, mtu, addr, l] => {
            let plan = plan::plan(&settings(fec, m, mtu, addr, rule)?, any_number(l)?);
            Some(plan.map(|plan| match named {
                Some(_) => format!("{} assured={}", show_plan(&plan), plan.losses),
                None => show_plan(&plan),
            }))
        }
        ["endure", fec, m, mtu, addr, l] => {
            let endured = endure(&settings(fec, m, mtu, addr, rule)?, any_number(l)?);
            Some(endured.map(|endured| show_endurance(&endured)))
        }
        ["fragment", fec, m, mtu, addr, pseq, index, room, packet] => {
            let (settings, number) = (settings(fec, m, mtu, addr, rule)?, short(pseq)?);
            let (index, mut out, packet) = (any_number(index)?, buffer(room)?, bytes(packet)?);
            let sent = sender::fragment(&settings, number, &packet, index, &mut out);
            Some(sent.map(|length| format!("fragment {}", hex(&out[..length]))))
        }
        ["fragments", fec, m, mtu, addr, pseq, room, packet] => {
            let (settings, number) = (settings(fec, m, mtu, addr, rule)?, short(pseq)?);
            let (mut out, packet) = (buffer(room)?, bytes(packet)?);
            let sent = sender::fragments(&settings, number, &packet, &mut out);
            Some(sent.map(|sent| format!("fragments {}", hex(&out[..sent.total()]))))
        }
        _ => None,
    }
}

fn on_af(words: &[&str]) -> Option<Answer<String>> {
    match words {
        ["afcheck", packet] => Some(af::check(&bytes(packet)?).map(|header| show_af(&header))),
        ["afwrap", seq, cf, room, payload] => {
            let (seq, cf, mut out) = (short(seq)?, flag(cf)?, buffer(room)?);
            let wrapped = af::wrap(seq, cf, &bytes(payload)?, &mut out);
            Some(wrapped.map(|length| format!("packet {}", hex(&out[..length]))))
        }
        _ => None,
    }
}

// Parts of an answer.

fn hex(bytes: &[u8]) -> String {
    if bytes.is_empty() {
        return "-".to_string();
    }
    bytes.iter().map(|byte| format!("{byte:02x}")).collect()
}

fn show_filling(filling: &Filling) -> String {
    match filling {
        Filling::Filled(chunk) => format!("filled {}", hex(chunk)),
        Filling::None => "none".to_string(),
        Filling::NotEnough => "notenough".to_string(),
    }
}

fn show_settings(settings: &Settings) -> String {
    let pair = |Address { source, dest }| format!("{source:04x}{dest:04x}");
    let address = settings.address.map_or("-".to_string(), pair);
    format!("settings {} {} {} {address}", u8::from(settings.fec), settings.m, settings.mtu)
}

fn show_plan(plan: &plan::Plan) -> String {
    format!(
        "plan c={} k={} z={} n={} S={} L={} f={} s={} h={}",
        plan.c, plan.k, plan.z, plan.n, plan.most, plan.total, plan.f, plan.s, plan.h
    )
}

fn show_endurance(endured: &Endurance) -> String {
    let lost: Vec<String> = endured.lost.iter().map(usize::to_string).collect();
    format!("endures {} of {} losing {}", endured.most, endured.f, lost.join(","))
}

fn show_af(header: &af::Header) -> String {
    let cf = u8::from(header.cf);
    format!("af seq={} cf={cf} rev=1.{} len={}", header.seq, header.minor, header.len)
}

fn show_received(received: &Received, out: &[u8]) -> String {
    let displaced = match received.displaced {
        Some(number) => number.to_string(),
        None => "none".to_string(),
    };
    match received.kept {
        Kept::Waits => format!("kept {displaced}"),
        Kept::Damaged => format!("refused {} {displaced}", number::DAMAGED),
        Kept::Delivered { length, missing } => {
            format!("delivered {length} {missing} {displaced} {}", hex(&out[..length]))
        }
    }
}

fn show_places(places: &[Option<(u16, Condition)>]) -> String {
    let words: Vec<String> = places.iter().map(show_place).collect();
    format!("places {}", words.join(" "))
}

fn show_place(place: &Option<(u16, Condition)>) -> String {
    match place {
        None => "free".to_string(),
        Some((number, Condition::Open)) => format!("open:{number}"),
        Some((number, Condition::Delivered)) => format!("delivered:{number}"),
        Some((number, Condition::Spoiled)) => format!("spoiled:{number}"),
    }
}
