//! Datagrams for the receiver: packets on their way, cut in all manners, in any order, with
//! losses, repeats and damage.

use card::{block as typed_block, sender as typed_sender};
use reference::af;
use reference::code::PARITY;
use reference::pft::{read, Chunks, Header};
use reference::plan::{Address, MOST_FRAGMENTS};

use crate::af::packet;
use crate::rng::Rng;
use crate::{block, sender};

/// How many packets are on their way at a time: now and then more than there are places.
const ON_THE_WAY: [usize; 12] = [1, 1, 2, 2, 2, 3, 3, 3, 4, 4, 4, 6];
/// The fragments of a packet, for the most part.
const FEW: usize = 16;

/// The fragments of a packet that are still to come, last one first, and whether the older rule
/// would have cut them otherwise.
struct Source {
    address: Option<Address>,
    fragments: Vec<Vec<u8>>,
    otherwise: bool,
}

/// A fragment, the address that it is meant for, and whether the older rule would have cut its
/// packet otherwise.
pub struct Datagram {
    pub bytes: Vec<u8>,
    pub address: Option<Address>,
    pub otherwise: bool,
}

/// Packets on their way.
#[derive(Default)]
pub struct Traffic {
    sources: Vec<Source>,
    number: u16,
}

impl Traffic {
    /// The next datagram.
    pub fn next(&mut self, rng: &mut Rng) -> Datagram {
        loop {
            if self.sources.len() < rng.pick(&ON_THE_WAY) {
                self.number = self.number.wrapping_add(1);
                let number = self.number.wrapping_sub(if rng.chance(8) { 3 } else { 0 });
                self.sources.push(source(rng, number));
            }
            if self.sources.is_empty() {
                continue;
            }
            let at = rng.below(self.sources.len());
            let Source { address, ref mut fragments, otherwise } = self.sources[at];
            match fragments.pop() {
                Some(bytes) => return Datagram { bytes, address, otherwise },
                None => drop(self.sources.swap_remove(at)),
            }
        }
    }

    /// Forgets what is still to come of a packet that was handed out.
    pub fn forget(&mut self, number: u16) {
        let of_it = |source: &Source| {
            source.fragments.last().is_some_and(|next| next[2..4] == number.to_be_bytes())
        };
        self.sources.retain(|source| !of_it(source));
    }
}

/// A packet of l bytes where most are short.
fn length(rng: &mut Rng) -> usize {
    match rng.below(1_000) {
        0..550 => rng.within(12, 207),
        550..800 => rng.within(208, 900),
        800..940 => rng.within(901, 3_000),
        _ => rng.within(3_001, 8_192),
    }
}

/// A packet cut and sent: in any order or in its own, with losses and repeats, and at times with
/// damage to what it carries.
fn source(rng: &mut Rng, number: u16) -> Source {
    let mut source = match rng.below(20) {
        0..12 => planned(rng, number),
        12..17 => woven(rng, number),
        _ => plain(rng, number),
    };
    let fragments = &mut source.fragments;
    let f = fragments.len();
    if rng.chance(60) {
        rng.shuffle(fragments);
    }
    if rng.chance(40) {
        let lost = rng.within(0, f.div_ceil(4));
        fragments.truncate(f - lost.min(f - 1));
    }
    if rng.chance(30) {
        let again = fragments[rng.below(fragments.len())].clone();
        fragments.insert(rng.below(fragments.len() + 1), again);
    }
    if rng.chance(15) {
        for _ in 0..rng.within(1, 3) {
            let at = rng.below(fragments.len());
            let payload = 20.min(fragments[at].len() - 1);
            rng.damage(&mut fragments[at][payload..]);
        }
    }
    source
}

/// A packet cut by the sender, by either rule.
fn planned(rng: &mut Rng, number: u16) -> Source {
    let mut out = vec![0; 32_768];
    loop {
        let l = length(rng);
        let (packet, settings) = (packet(rng, l), sender::settings(rng, l));
        let typed = sender::typed_settings(&settings);
        let sent = typed_sender::fragments(&typed, number, &packet, &mut out).ok();
        if let Some(split) = sent.filter(|split| split.f <= FEW || rng.chance(4)) {
            let fragments = split.parts(&out).map(<[u8]>::to_vec).collect();
            let otherwise = sender::cut_otherwise(&settings, l);
            return Source { address: settings.address, fragments, otherwise };
        }
    }
}

/// A packet, or bytes that are none.
fn content(rng: &mut Rng, l: usize) -> Vec<u8> {
    if (af::LEAST..=af::MOST).contains(&l) && rng.chance(85) {
        packet(rng, l)
    } else {
        rng.bytes(l)
    }
}

/// A packet with FEC under other sizes than a sender's: any chunks, any count of fragments.
fn woven(rng: &mut Rng, number: u16) -> Source {
    let (k, c) = block::chunks(rng, 20);
    let (l, n) = (c * k - rng.below(k), k + PARITY);
    let (mut f, mut s) = block::fragments(rng, c * n);
    while f > FEW && rng.chance(96) {
        (f, s) = block::fragments(rng, c * n);
    }
    let (packet, mut cells) = (content(rng, l), vec![0; f * s]);
    typed_block::encode(&packet, k, c, &mut cells).expect("the block fits");
    let mut z = c * k - l;
    if rng.chance(5) {
        z = rng.below(k);
    }
    let address = rng.chance(30).then(|| sender::address(rng));
    let chunks = Some(Chunks { k, z });
    let fragment = |findex: usize| {
        let payload = cells.iter().copied().skip(findex).step_by(f);
        let header = Header { number, findex, fcount: f, plen: s, chunks, address };
        header.bytes().into_iter().chain(payload).collect()
    };
    Source { address, fragments: (0..f).map(fragment).collect(), otherwise: false }
}

/// A packet without FEC, cut anywhere.
fn plain(rng: &mut Rng, number: u16) -> Source {
    let l = if rng.chance(10) { rng.within(1, 30) } else { length(rng) };
    let (packet, least) = (content(rng, l), l.div_ceil(MOST_FRAGMENTS));
    let s = rng.within(least.max(l / 30).max(1), l);
    let address = rng.chance(30).then(|| sender::address(rng));
    let fcount = l.div_ceil(s);
    let fragment = |(findex, payload): (usize, &[u8])| {
        let plen = payload.len();
        let header = Header { number, findex, fcount, plen, chunks: None, address };
        [header.bytes(), payload.to_vec()].concat()
    };
    let fragments = packet.chunks(s).enumerate().map(fragment).collect();
    Source { address, fragments, otherwise: false }
}

/// Damages a datagram so that it is refused, for the most part.
pub fn damage(rng: &mut Rng, datagram: &mut Vec<u8>, address: Option<Address>) {
    match rng.below(12) {
        0 => datagram.truncate(rng.below(20)),
        1 => datagram[rng.below(2)] ^= 1 << rng.below(8),
        2 | 3 => rng.damage(&mut datagram[2..14]),
        4 => datagram.truncate(datagram.len() - 1),
        5 => datagram.push(rng.byte()),
        6 => {
            let length = rng.below(80);
            *datagram = rng.bytes(length);
        }
        _ => {
            if let Ok(header) = read(datagram, address) {
                let payload = datagram.split_off(header.length());
                *datagram = changed(rng, header).bytes();
                datagram.extend(payload);
            }
        }
    }
}

/// Another header, with a right CRC.
fn changed(rng: &mut Rng, mut header: Header) -> Header {
    match rng.below(10) {
        0 => header.findex = rng.pick(&[header.fcount, header.fcount + 1, 256, 0xFF_FFFF]),
        1 => header.fcount = rng.pick(&[0, 257, 65_536, 0xFF_FFFF]),
        2 => header.fcount = rng.pick(&[256, header.fcount + 1, header.findex + 1]),
        3 => header.plen = rng.pick(&[0, header.plen - 1, header.plen + 1, 0x3FFF]),
        4 => {
            header.chunks =
                header.chunks.map(|chunks| Chunks { k: rng.pick(&[0, 208, 255]), ..chunks })
        }
        5 => header.chunks = header.chunks.map(|c| Chunks { z: rng.pick(&[c.k, 255]), ..c }),
        6 => header.chunks = header.chunks.map(|chunks| Chunks { z: chunks.z ^ 1, ..chunks }),
        7 => header.chunks = header.chunks.map(|chunks| Chunks { k: chunks.k ^ 1, ..chunks }),
        8 => header.findex = rng.below(header.fcount),
        _ => header.number = header.number.wrapping_sub(rng.below(4) as u16),
    }
    header
}
