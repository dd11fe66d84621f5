//! Clause 7.4 and document 01, "The four places": fragments kept until a packet can be had.
//!
//! The record of the places is a plain struct; the kept bytes stand in a lent buffer of 49,152
//! bytes, 12,288 a place. Fragment i stands at i s; without FEC the last one ends at its place's
//! end, because s may be unknown when it comes.

use crate::code::{fill, Filling, PARITY};
use crate::pft::{read, Chunks, Header, PLACE};
use crate::plan::{Address, MOST_FRAGMENTS};
use crate::{af, number, refuse, Answer};

/// How many packets can be in assembly.
pub const PLACES: usize = 4;
/// The bytes lent for the table, never more and never less.
pub const LENT: usize = PLACES * PLACE;

#[derive(Clone, Copy, Debug, PartialEq)]
pub enum Condition {
    Open,
    Delivered,
    Spoiled,
}

/// The record of a place that holds a number. `size` is s: with FEC it is known, without it only
/// from a fragment before the last. `last` is the length of the last fragment, where it is kept
/// without FEC. `turn` tells which place was opened before which.
#[derive(Clone, Debug, PartialEq)]
pub struct Place {
    pub condition: Condition,
    pub number: u16,
    pub fcount: usize,
    pub chunks: Option<Chunks>,
    pub size: Option<usize>,
    pub last: Option<usize>,
    pub kept: Vec<bool>,
    pub turn: u64,
}

/// The record of the four places, and how many have been opened since it was fresh.
#[derive(Clone, Debug, PartialEq)]
pub struct Table {
    pub places: [Option<Place>; PLACES],
    pub opened: u64,
}

/// What became of a fragment that was kept.
#[derive(Debug, PartialEq)]
pub enum Kept {
    /// More is needed.
    Waits,
    /// The packet stands in the first `length` bytes of the buffer; `missing` fragments of it are
    /// not held.
    Delivered { length: usize, missing: usize },
    /// Number 13: no packet agrees, and the place is spoiled.
    Damaged,
}

/// The answer to a fragment that was kept, and the number of the open place it displaced.
#[derive(Debug, PartialEq)]
pub struct Received {
    pub kept: Kept,
    pub displaced: Option<u16>,
}

impl Table {
    pub fn fresh() -> Table {
        Table { places: [None, None, None, None], opened: 0 }
    }

    /// Takes a fragment. Refused in the order 14, 1 to 12, which leaves everything as it was.
    pub fn receive(
        &mut self,
        configured: Option<Address>,
        lent: &mut [u8],
        datagram: &[u8],
        out: &mut [u8],
    ) -> Answer<Received> {
        self.check(lent)?;
        refuse(out.len() < af::MOST, number::ROOM)?;
        let header = read(datagram, configured)?;
        let payload = &datagram[header.length()..];
        let (at, displaced) = self.place_for(&header)?;
        let bytes = &mut lent[at * PLACE..(at + 1) * PLACE];
        let place = self.places[at].as_mut().expect("a place that takes a fragment is held");
        place.keep(&header, payload, bytes);
        let kept = place.form(bytes, out);
        Ok(Received { kept, displaced })
    }

    /// Number and condition of all four places; refused as 14, then 1.
    pub fn query(&self, lent: &[u8]) -> Answer<[Option<(u16, Condition)>; PLACES]> {
        self.check(lent)?;
        let shown = |place: &Place| (place.number, place.condition);
        Ok([0, 1, 2, 3].map(|at| self.places[at].as_ref().map(shown)))
    }

    /// Empties all four places and leaves the lent bytes; refused as 14, then 1.
    pub fn clear(&mut self, lent: &[u8]) -> Answer<()> {
        self.check(lent)?;
        *self = Table::fresh();
        Ok(())
    }

    /// 14 for a record out of its range, then 1 for a table that is not 49,152 bytes.
    fn check(&self, lent: &[u8]) -> Answer<()> {
        let right = |place: &Place| place.turn < self.opened && place.in_range();
        let in_range = self.places.iter().flatten().all(right);
        refuse(!in_range, number::STATE)?;
        refuse(lent.len() != LENT, number::ROOM)
    }

    /// Which place takes the fragment, and the open number that it displaces. A held number goes
    /// to its place, if the checks 9 to 12 let it; another one opens a place.
    fn place_for(&mut self, header: &Header) -> Answer<(usize, Option<u16>)> {
        for (at, held) in self.places.iter().enumerate() {
            if let Some(place) = held.as_ref().filter(|place| place.number == header.number) {
                place.check(header)?;
                return Ok((at, None));
            }
        }
        Ok(self.open(header))
    }

    /// Opens the first free place, or the one opened longest ago.
    fn open(&mut self, header: &Header) -> (usize, Option<u16>) {
        let turn = |at: &usize| self.places[*at].as_ref().map(|place| place.turn);
        let at = (0..PLACES).min_by_key(turn).expect("there are four places");
        let old = self.places[at].replace(Place::opened(header, self.opened));
        self.opened += 1;
        let open = old.filter(|place| place.condition == Condition::Open);
        (at, open.map(|place| place.number))
    }
}

impl Place {
    /// A place for the fragments that come with this header; none is kept yet.
    fn opened(header: &Header, turn: u64) -> Place {
        Place {
            condition: Condition::Open,
            number: header.number,
            fcount: header.fcount,
            chunks: header.chunks,
            size: None,
            last: None,
            kept: vec![false; header.fcount],
            turn,
        }
    }

    /// Whether the figures can be those of a place: 1 to 256 fragments that fit it, one at least
    /// is kept, and sizes are known of just those fragments that tell them.
    fn in_range(&self) -> bool {
        let count_right = (1..=MOST_FRAGMENTS).contains(&self.fcount);
        if !count_right || self.kept.len() != self.fcount {
            return false;
        }
        match self.chunks {
            Some(chunks) => self.coded_in_range(chunks),
            None => self.plain_in_range(),
        }
    }

    fn coded_in_range(&self, chunks: Chunks) -> bool {
        let all = self.fcount.saturating_mul(self.size.unwrap_or(0));
        all <= PLACE && chunks.fit(all) && self.last.is_none() && self.kept.contains(&true)
    }

    fn plain_in_range(&self) -> bool {
        let (before, last) = self.kept.split_at(self.fcount - 1);
        let size_told = self.size.is_some() == before.contains(&true);
        let last_told = self.last.is_some() == last[0];
        let longest = self.size.or(self.last).unwrap_or(0);
        let fits = longest >= 1 && self.fcount.saturating_mul(longest) <= PLACE;
        let last_fits = self.last.is_none_or(|length| (1..=longest).contains(&length));
        size_told && last_told && fits && last_fits
    }

    /// What a fragment of a held number is refused for: 9, 10, 11, 12.
    fn check(&self, header: &Header) -> Answer<()> {
        let other_cut = header.fcount != self.fcount || header.chunks != self.chunks;
        refuse(other_cut || !self.size_belongs(header), number::MISMATCH)?;
        refuse(self.condition == Condition::Spoiled, number::SPOILED)?;
        refuse(self.condition == Condition::Delivered, number::LATE)?;
        refuse(self.kept[header.findex], number::REPEAT)
    }

    /// With FEC a size belongs where it is s. Without, a fragment before the last is as long as a
    /// known s and no shorter than the kept last, and the last is no longer than a known s.
    fn size_belongs(&self, header: &Header) -> bool {
        let is_size = self.size.is_none_or(|size| header.plen == size);
        let covers_last = self.last.is_none_or(|last| header.plen >= last);
        let within_size = self.size.is_none_or(|size| header.plen <= size);
        if self.chunks.is_some() {
            is_size
        } else if self.is_last(header.findex) {
            within_size
        } else {
            is_size && covers_last
        }
    }

    fn is_last(&self, index: usize) -> bool {
        index + 1 == self.fcount
    }

    /// Keeps a fragment that passed all checks.
    fn keep(&mut self, header: &Header, payload: &[u8], bytes: &mut [u8]) {
        if self.chunks.is_none() && self.is_last(header.findex) {
            self.last = Some(payload.len());
        } else {
            self.size = Some(payload.len());
        }
        self.kept[header.findex] = true;
        let start = self.start(header.findex);
        bytes[start..start + payload.len()].copy_from_slice(payload);
    }

    /// Where fragment i stands in its place.
    fn start(&self, index: usize) -> usize {
        match self.last {
            Some(last) if self.is_last(index) => PLACE - last,
            _ => index * self.size.unwrap_or(0),
        }
    }

    /// The length of kept fragment i.
    fn length(&self, index: usize) -> usize {
        let length = if self.is_last(index) { self.last.or(self.size) } else { self.size };
        length.unwrap_or(0)
    }

    /// Hands the packet out if what is held suffices, and closes the place.
    fn form(&mut self, bytes: &[u8], out: &mut [u8]) -> Kept {
        if !self.suffices() {
            return Kept::Waits;
        }
        let Some(packet) = self.packet(bytes) else {
            self.condition = Condition::Spoiled;
            return Kept::Damaged;
        };
        self.condition = Condition::Delivered;
        out[..packet.len()].copy_from_slice(&packet);
        let missing = self.kept.iter().filter(|kept| !**kept).count();
        Kept::Delivered { length: packet.len(), missing }
    }

    /// Without FEC all fragments; with it, no chunk misses more than 48 bytes.
    fn suffices(&self) -> bool {
        match self.chunks {
            None => self.kept.iter().all(|kept| *kept),
            Some(chunks) => {
                (0..self.chunk_count(chunks)).all(|j| self.missing(chunks, j) <= PARITY)
            }
        }
    }

    /// c = floor(f s / n), n = RSk + 48.
    fn chunk_count(&self, chunks: Chunks) -> usize {
        self.fcount * self.size.unwrap_or(0) / (chunks.k + PARITY)
    }

    /// The cells of chunk j in the block.
    fn cells(chunks: Chunks, j: usize) -> std::ops::Range<usize> {
        let n = chunks.k + PARITY;
        j * n..(j + 1) * n
    }

    /// How many bytes of chunk j are not held: cell q stands in fragment q mod f.
    fn missing(&self, chunks: Chunks, j: usize) -> usize {
        Place::cells(chunks, j).filter(|q| !self.kept[q % self.fcount]).count()
    }

    /// The packet that agrees with what is held, if there is one that passes the AF checks.
    fn packet(&self, bytes: &[u8]) -> Option<Vec<u8>> {
        let packet = match self.chunks {
            Some(chunks) => self.decoded(chunks, bytes)?,
            None => self.joined(bytes),
        };
        af::check(&packet).ok()?;
        Some(packet)
    }

    /// The fragments one behind the other.
    fn joined(&self, bytes: &[u8]) -> Vec<u8> {
        let part = |i| &bytes[self.start(i)..self.start(i) + self.length(i)];
        (0..self.fcount).flat_map(part).copied().collect()
    }

    /// The ck - z data bytes of the filled chunks, if all can be filled and the last z are zero.
    fn decoded(&self, chunks: Chunks, bytes: &[u8]) -> Option<Vec<u8>> {
        let mut data = Vec::new();
        for j in 0..self.chunk_count(chunks) {
            let word = self.filled(chunks, j, bytes)?;
            data.extend(&word[..chunks.k]);
        }
        let zeros = data.split_off(data.len() - chunks.z);
        zeros.iter().all(|zero| *zero == 0).then_some(data)
    }

    /// Chunk j with its missing bytes filled, if a word of the code agrees: cell q stands in
    /// fragment q mod f at offset floor(q / f).
    fn filled(&self, chunks: Chunks, j: usize, bytes: &[u8]) -> Option<Vec<u8>> {
        let f = self.fcount;
        let cells = Place::cells(chunks, j);
        let chunk: Vec<u8> = cells.clone().map(|q| bytes[self.start(q % f) + q / f]).collect();
        let missing: Vec<bool> = cells.map(|q| !self.kept[q % f]).collect();
        match fill(chunks.k, &chunk, &missing) {
            Ok(Filling::Filled(word)) => Some(word),
            _ => None,
        }
    }
}
