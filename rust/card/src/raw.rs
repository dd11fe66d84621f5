//! The calls with slices in place of pointers and lengths; all else is as in crates/card/card.h.
//!
//! A slice's pointer is never null and its bytes are alive, and `&mut` rules out that bytes which
//! are written overlap any others: that is all that the library asks of its callers.
#![allow(clippy::too_many_arguments)] // as many as the library's calls take

use crate::ffi;

/// The bytes that a check tells; where `told` has fewer, a call that tells gives 1 or the number
/// that is due before it, and does nothing.
pub const TOLD_CHECK: usize = 8;
/// The bytes that finding an item tells, by its name or by the number of its occurrence.
pub const TOLD_FIND: usize = 26;
/// The bytes that a step of a walk tells.
pub const TOLD_STEP: usize = 31;
/// The bytes that a plan tells.
pub const TOLD_PLAN: usize = 20;
/// The bytes that an endurance tells.
pub const TOLD_ENDURE: usize = 260;
/// The bytes that a fragment tells.
pub const TOLD_FRAGMENT: usize = 2;
/// The bytes that all fragments tell.
pub const TOLD_FRAGMENTS: usize = 8;
/// The bytes that reading a header tells.
pub const TOLD_PARSE: usize = 17;
/// The bytes that a receiving tells.
pub const TOLD_RECEIVE: usize = 8;
/// The bytes that a query tells.
pub const TOLD_QUERY: usize = 12;

pub fn wrap(seq: u16, cf: usize, payload: &[u8], out: &mut [u8]) -> usize {
    let (bytes, room) = (payload.len(), out.len());
    // Safety: pointers and lengths are those of live slices, which do not overlap.
    unsafe { ffi::bailhammer_wrap(seq, cf, payload.as_ptr(), bytes, out.as_mut_ptr(), room) }
}

pub fn check(packet: &[u8], told: &mut [u8]) -> usize {
    let (bytes, room) = (packet.len(), told.len());
    // Safety: pointers and lengths are those of live slices, which do not overlap.
    unsafe { ffi::bailhammer_check(packet.as_ptr(), bytes, told.as_mut_ptr(), room) }
}

pub fn item(name: u32, bits: u32, value: &[u8], out: &mut [u8]) -> usize {
    let (bytes, room) = (value.len(), out.len());
    // Safety: pointers and lengths are those of live slices, which do not overlap.
    unsafe { ffi::bailhammer_item(name, bits, value.as_ptr(), bytes, out.as_mut_ptr(), room) }
}

pub fn find(packet: &[u8], standing: &[u8], name: u32, repeats: usize, told: &mut [u8]) -> usize {
    // Safety: pointers and lengths are those of live slices, and those read may be the same.
    unsafe {
        ffi::bailhammer_find(
            packet.as_ptr(),
            packet.len(),
            standing.as_ptr(),
            standing.len(),
            name,
            repeats,
            told.as_mut_ptr(),
            told.len(),
        )
    }
}

pub fn nth(packet: &[u8], name: u32, number: usize, repeats: usize, told: &mut [u8]) -> usize {
    // Safety: pointers and lengths are those of live slices, which do not overlap.
    unsafe {
        ffi::bailhammer_nth(
            packet.as_ptr(),
            packet.len(),
            name,
            number,
            repeats,
            told.as_mut_ptr(),
            told.len(),
        )
    }
}

pub fn walk_open(packet: &[u8], names: &[u8], repeats: usize, walker: &mut [u8]) -> usize {
    // Safety: pointers and lengths are those of live slices, and those read may be the same.
    unsafe {
        ffi::bailhammer_walk_open(
            packet.as_ptr(),
            packet.len(),
            names.as_ptr(),
            names.len(),
            repeats,
            walker.as_mut_ptr(),
            walker.len(),
        )
    }
}

pub fn walk_step(packet: &[u8], names: &[u8], walker: &mut [u8], told: &mut [u8]) -> usize {
    // Safety: pointers and lengths are those of live slices, and those read may be the same.
    unsafe {
        ffi::bailhammer_walk_step(
            packet.as_ptr(),
            packet.len(),
            names.as_ptr(),
            names.len(),
            walker.as_mut_ptr(),
            walker.len(),
            told.as_mut_ptr(),
            told.len(),
        )
    }
}

pub fn plan(
    fec: usize,
    m: usize,
    newer: usize,
    mtu: usize,
    addressed: usize,
    l: usize,
    told: &mut [u8],
) -> usize {
    let room = told.len();
    // Safety: pointer and length are those of a live slice.
    unsafe { ffi::bailhammer_plan(fec, m, newer, mtu, addressed, l, told.as_mut_ptr(), room) }
}

pub fn endure(
    fec: usize,
    m: usize,
    newer: usize,
    mtu: usize,
    addressed: usize,
    l: usize,
    told: &mut [u8],
) -> usize {
    let room = told.len();
    // Safety: pointer and length are those of a live slice.
    unsafe { ffi::bailhammer_endure(fec, m, newer, mtu, addressed, l, told.as_mut_ptr(), room) }
}

pub fn fragment(
    fec: usize,
    m: usize,
    newer: usize,
    mtu: usize,
    addressed: usize,
    source: u16,
    dest: u16,
    pseq: u16,
    packet: &[u8],
    index: usize,
    told: &mut [u8],
    out: &mut [u8],
) -> usize {
    // Safety: pointers and lengths are those of live slices, which do not overlap.
    unsafe {
        ffi::bailhammer_fragment(
            fec,
            m,
            newer,
            mtu,
            addressed,
            source,
            dest,
            pseq,
            packet.as_ptr(),
            packet.len(),
            index,
            told.as_mut_ptr(),
            told.len(),
            out.as_mut_ptr(),
            out.len(),
        )
    }
}

pub fn fragments(
    fec: usize,
    m: usize,
    newer: usize,
    mtu: usize,
    addressed: usize,
    source: u16,
    dest: u16,
    pseq: u16,
    packet: &[u8],
    told: &mut [u8],
    out: &mut [u8],
) -> usize {
    // Safety: pointers and lengths are those of live slices, which do not overlap.
    unsafe {
        ffi::bailhammer_fragments(
            fec,
            m,
            newer,
            mtu,
            addressed,
            source,
            dest,
            pseq,
            packet.as_ptr(),
            packet.len(),
            told.as_mut_ptr(),
            told.len(),
            out.as_mut_ptr(),
            out.len(),
        )
    }
}

pub fn parse(addressed: usize, source: u16, dest: u16, datagram: &[u8], told: &mut [u8]) -> usize {
    // Safety: pointers and lengths are those of live slices, which do not overlap.
    unsafe {
        ffi::bailhammer_parse(
            addressed,
            source,
            dest,
            datagram.as_ptr(),
            datagram.len(),
            told.as_mut_ptr(),
            told.len(),
        )
    }
}

pub fn receive(
    addressed: usize,
    source: u16,
    dest: u16,
    record: &mut [u8],
    lent: &mut [u8],
    datagram: &[u8],
    told: &mut [u8],
    out: &mut [u8],
) -> usize {
    // Safety: pointers and lengths are those of live slices, which do not overlap.
    unsafe {
        ffi::bailhammer_receive(
            addressed,
            source,
            dest,
            record.as_mut_ptr(),
            record.len(),
            lent.as_mut_ptr(),
            lent.len(),
            datagram.as_ptr(),
            datagram.len(),
            told.as_mut_ptr(),
            told.len(),
            out.as_mut_ptr(),
            out.len(),
        )
    }
}

pub fn query(record: &[u8], lent: &[u8], told: &mut [u8]) -> usize {
    // Safety: pointers and lengths are those of live slices, and those read may be the same.
    unsafe {
        ffi::bailhammer_query(
            record.as_ptr(),
            record.len(),
            lent.as_ptr(),
            lent.len(),
            told.as_mut_ptr(),
            told.len(),
        )
    }
}

pub fn clear(record: &mut [u8], lent: &[u8]) -> usize {
    let (room, bytes) = (record.len(), lent.len());
    // Safety: pointers and lengths are those of live slices, which do not overlap.
    unsafe { ffi::bailhammer_clear(record.as_mut_ptr(), room, lent.as_ptr(), bytes) }
}

pub fn encode(packet: &[u8], k: usize, c: usize, out: &mut [u8]) -> usize {
    let (bytes, room) = (packet.len(), out.len());
    // Safety: pointers and lengths are those of live slices, which do not overlap.
    unsafe { ffi::bailhammer_encode(packet.as_ptr(), bytes, k, c, out.as_mut_ptr(), room) }
}

pub fn fill(kept: &[u8], f: usize, s: usize, k: usize, block: &mut [u8]) -> usize {
    let (flags, room) = (kept.len(), block.len());
    // Safety: pointers and lengths are those of live slices, which do not overlap.
    unsafe { ffi::bailhammer_fill(kept.as_ptr(), flags, f, s, k, block.as_mut_ptr(), room) }
}
