//! The header of a datagram: parse.

use card::{header, raw};
use reference::code::{MOST_DATA, PARITY};
use reference::pft::{read, Chunks, Header, PLACE};
use reference::plan::{Address, MOST_FRAGMENTS};

use crate::rng::Rng;
use crate::sender::{address, pair, typed_address};
use crate::tally::{due, hex, number_of, told, Judge, Tally};
use crate::traffic::damage;

/// A header whose sizes can be; at the edges of what they can be, and at times one past them.
fn some_header(rng: &mut Rng) -> Header {
    let any = rng.within(1, MOST_FRAGMENTS);
    let fcount = rng.pick(&[1, 2, MOST_FRAGMENTS, any, any, any]);
    let chunks = rng.chance(60).then(|| {
        let k = rng.within(1, MOST_DATA);
        let z = rng.below(k);
        Chunks { k: rng.pick(&[k, k, MOST_DATA]), z }
    });
    let least = chunks.map_or(1, |chunks| (chunks.k + PARITY).div_ceil(fcount));
    let most = PLACE / fcount;
    let plen = match rng.below(100) {
        0..10 => least,
        10..20 => most,
        20..22 => least - 1,
        22..24 => most + 1,
        _ => least + rng.length(most - least),
    };
    let findex = rng.below(fcount);
    let address = rng.chance(40).then(|| address(rng));
    Header { number: rng.short(), findex, fcount, plen, chunks, address }
}

/// A datagram, right or damaged, and the address that it is meant for.
fn datagram(rng: &mut Rng) -> (Vec<u8>, Option<Address>) {
    let header = some_header(rng);
    let mut datagram = header.bytes();
    datagram.extend(rng.bytes(header.plen));
    if rng.chance(35) {
        damage(rng, &mut datagram, header.address);
    }
    (datagram, header.address)
}

pub fn parse(rng: &mut Rng, tally: &mut Tally) {
    let (datagram, meant) = datagram(rng);
    let other = Some(address(rng));
    let own = if rng.chance(90) { meant } else { rng.pick(&[None, other]) };
    let (addressed, source, dest) = pair(rng, own);
    let before = rng.room(raw::TOLD_PARSE);
    let mut after = before.clone();
    let number = raw::parse(addressed, source, dest, &datagram, &mut after);
    let typed = header::parse(typed_address(own), &datagram).map_err(|refused| refused.0);
    let expected = read(&datagram, own);

    let mut judge = Judge::default();
    let due = due(&expected, &before, raw::TOLD_PARSE);
    judge.same("number", number, number_of(&due));
    let line = due.map_or(before.clone(), |header| told(&before, &bytes(header)));
    judge.bytes("told", &after, &line);
    judge.same("typed", typed.map(as_reference), expected.map(|header| (header, header.length())));
    tally.count(number, judge, || {
        let pair = format!("addressed={addressed} source={source} dest={dest}");
        format!("{pair} datagram={} told={}", hex(&datagram), hex(&before))
    });
}

/// Pseq, Findex, Fcount; FEC, RSk, RSz; Addr, Source, Dest; Plen, h.
fn bytes(header: &Header) -> Vec<u8> {
    let mut bytes = header.number.to_be_bytes().to_vec();
    bytes.extend((header.findex as u16).to_be_bytes());
    bytes.extend((header.fcount as u16).to_be_bytes());
    let chunks = header.chunks.unwrap_or(Chunks { k: 0, z: 0 });
    bytes.extend([header.chunks.is_some().into(), chunks.k as u8, chunks.z as u8]);
    let address = header.address.unwrap_or(Address { source: 0, dest: 0 });
    bytes.push(header.address.is_some().into());
    bytes.extend(address.source.to_be_bytes());
    bytes.extend(address.dest.to_be_bytes());
    bytes.extend((header.plen as u16).to_be_bytes());
    bytes.push(header.length() as u8);
    bytes
}

/// The typed answer as the reference's header, and h.
fn as_reference(typed: header::Header) -> (Header, usize) {
    let header = Header {
        number: typed.number,
        findex: typed.findex.into(),
        fcount: typed.fcount.into(),
        plen: typed.plen.into(),
        chunks: typed.chunks.map(|c| Chunks { k: c.k.into(), z: c.z.into() }),
        address: typed.address.map(|pair| Address { source: pair.source, dest: pair.dest }),
    };
    (header, typed.h.into())
}
