//! Clause 7.3: a packet cut into fragments.

use crate::pft::{Chunks, Header};
use crate::plan::{check_settings, plan, Plan, Settings};
use crate::{af, code, number, refuse, Answer};

/// How the fragments of a packet stand one behind the other: f of them, each with h bytes of
/// header, s bytes of payload in all but the last, and `last` bytes there.
#[derive(Debug, PartialEq)]
pub struct Sent {
    pub f: usize,
    pub h: usize,
    pub s: usize,
    pub last: usize,
}

impl Sent {
    /// The bytes of all fragments.
    pub fn total(&self) -> usize {
        self.f * self.h + (self.f - 1) * self.s + self.last
    }
}

/// Writes fragment `index` into the first bytes of `out`, and gives its length.
/// Refusals: 40, the AF checks, 41, 42, ROOM.
pub fn fragment(
    settings: &Settings,
    number: u16,
    packet: &[u8],
    index: usize,
    out: &mut [u8],
) -> Answer<usize> {
    let plan = plan_packet(settings, packet)?;
    refuse(index >= plan.f, number::INDEX)?;
    let payloads = payloads(&plan, packet)?;
    lay(&bytes(settings, &plan, number, index, &payloads[index]), out)
}

/// Writes all fragments one behind the other into the first bytes of `out`.
/// Refusals: 40, the AF checks, 41, ROOM.
pub fn fragments(settings: &Settings, number: u16, packet: &[u8], out: &mut [u8]) -> Answer<Sent> {
    let plan = plan_packet(settings, packet)?;
    let mut all = Vec::new();
    for (index, payload) in payloads(&plan, packet)?.iter().enumerate() {
        all.extend(bytes(settings, &plan, number, index, payload));
    }
    lay(&all, out)?;
    Ok(Sent { f: plan.f, h: plan.h, s: plan.s, last: plan.payload(plan.f - 1) })
}

/// The plan of a packet: 40, then the AF checks, then 41.
fn plan_packet(settings: &Settings, packet: &[u8]) -> Answer<Plan> {
    check_settings(settings)?;
    af::check(packet)?;
    plan(settings, packet.len())
}

/// The payloads of all fragments.
fn payloads(plan: &Plan, packet: &[u8]) -> Answer<Vec<Vec<u8>>> {
    if plan.c == 0 {
        return Ok(packet.chunks(plan.s).map(<[u8]>::to_vec).collect());
    }
    let block = block(plan, packet)?;
    Ok(interleave(plan, &block))
}

/// The packet and z zeros as c chunks of k bytes, each followed by its parity.
fn block(plan: &Plan, packet: &[u8]) -> Answer<Vec<u8>> {
    let mut data = packet.to_vec();
    data.extend(vec![0; plan.z]);
    let mut block = Vec::new();
    for chunk in data.chunks(plan.k) {
        block.extend(chunk);
        block.extend(code::parity(chunk)?);
    }
    Ok(block)
}

/// Byte q of the block goes to fragment q mod f, offset floor(q / f); cells left over are zero.
fn interleave(plan: &Plan, block: &[u8]) -> Vec<Vec<u8>> {
    let mut payloads = vec![vec![0; plan.s]; plan.f];
    for (q, byte) in block.iter().enumerate() {
        payloads[q % plan.f][q / plan.f] = *byte;
    }
    payloads
}

/// The bytes of one fragment: its header, then its payload.
fn bytes(settings: &Settings, plan: &Plan, number: u16, findex: usize, payload: &[u8]) -> Vec<u8> {
    let header = Header {
        number,
        findex,
        fcount: plan.f,
        plen: payload.len(),
        chunks: settings.fec.then_some(Chunks { k: plan.k, z: plan.z }),
        address: settings.address,
    };
    [header.bytes().as_slice(), payload].concat()
}

/// Lays bytes into the first bytes of `out`, and gives how many; ROOM where they do not fit.
fn lay(bytes: &[u8], out: &mut [u8]) -> Answer<usize> {
    refuse(out.len() < bytes.len(), number::ROOM)?;
    out[..bytes.len()].copy_from_slice(bytes);
    Ok(bytes.len())
}
