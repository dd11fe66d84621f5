//! An example to copy: two packets are cut, a line mixes their fragments, loses one of each and
//! brings one twice, and a receiver rebuilds both.

use card::receiver::{LENT, PACKET};
use card::sender::{Split, SENT};
use card::{af, sender, tag, Received, Receiver, Refused, Repeats, Settings};

const SETTINGS: Settings = Settings::HOUSE;

/// A packet and its fragments.
struct Traffic {
    number: u16,
    packet: Vec<u8>,
    losses: usize,
    bytes: Vec<u8>,
    split: Split,
    rebuilt: bool,
}

/// Makes an AF packet with one TAG item, "demo", of so many bytes, and cuts it.
fn prepare(number: u16, bytes: usize) -> Result<Traffic, Refused> {
    let value: Vec<u8> = (0..bytes).map(|i| (i * i + i / 7 + usize::from(number)) as u8).collect();
    let mut payload = vec![0; tag::HEAD + bytes];
    tag::item(*b"demo", 8 * bytes as u32, &value, &mut payload)?;
    let (mut packet, mut bytes) = (vec![0; payload.len() + af::FRAME], vec![0; SENT]);
    af::wrap(number, true, &payload, &mut packet)?;
    let losses = sender::plan(&SETTINGS, packet.len())?.losses.into();
    let split = sender::fragments(&SETTINGS, number, &packet, &mut bytes)?;
    println!(
        "packet {number}: {} bytes in {} fragments, any {losses} may be lost",
        packet.len(),
        split.f
    );
    Ok(Traffic { number, packet, losses, bytes, split, rebuilt: false })
}

/// Looks at a packet that was handed out: it must be the one that was sent, and "demo" must be in
/// it.
fn deliver(traffic: &mut Traffic, packet: &[u8]) -> Result<(), Refused> {
    let checked = af::check(packet)?;
    let payload = &packet[af::HEADER..][..checked.len];
    let demo = tag::find(payload, &[], *b"demo", Repeats::Forbidden)?;
    println!("    AF packet {}, demo has {} bytes", checked.seq, demo.value.len());
    traffic.rebuilt = packet == traffic.packet;
    Ok(())
}

/// Hands the receiver one datagram. What a line brings is no reason to stop: late, repeated and
/// damaged fragments are ordinary.
fn receive(receiver: &mut Receiver, traffic: &mut Traffic, i: usize) -> Result<(), Refused> {
    let datagram = traffic.split.part(&traffic.bytes, i).unwrap_or(&[]);
    let mut out = [0; PACKET];
    let (what, handed, lost) = match receiver.receive(None, datagram, &mut out) {
        Ok(Received::Waits { displaced }) => ("kept".to_string(), 0, displaced),
        Ok(Received::Damaged { displaced }) => (Refused::DAMAGED.to_string(), 0, displaced),
        Ok(Received::Delivered { length, missing, displaced }) => {
            let what = format!("completes it, {length} bytes, {missing} fragments not held");
            (what, length, displaced)
        }
        Err(fault @ (Refused::ROOM | Refused::STATE)) => return Err(fault), // our own fault
        Err(ordinary) => (ordinary.to_string(), 0, None),
    };
    println!("packet {} fragment {i}: {what}", traffic.number);
    if let Some(number) = lost {
        println!("    packet {number} lost its place");
    }
    if handed > 0 {
        deliver(traffic, &out[..handed])?;
    }
    Ok(())
}

/// The line: it loses the fragments 3, 7, .., as many as the plan says may be lost, which is one at
/// the house default, and brings fragment 5 of packet 7 twice.
fn carry(receiver: &mut Receiver, traffic: &mut Traffic, i: usize) -> Result<(), Refused> {
    if i % 4 == 3 && i / 4 < traffic.losses {
        println!("packet {} fragment {i}: lost", traffic.number);
        return Ok(());
    }
    for _ in 0..1 + usize::from(traffic.number == 7 && i == 5) {
        receive(receiver, traffic, i)?;
    }
    Ok(())
}

fn main() -> Result<(), Refused> {
    let mut both = [prepare(7, 7_992)?, prepare(8, 3_000)?];
    let mut lent = [0; LENT];
    let mut receiver = Receiver::new(&mut lent);
    for i in 0..both.iter().map(|traffic| traffic.split.f).max().unwrap_or(0) {
        for traffic in both.iter_mut().filter(|traffic| i < traffic.split.f) {
            carry(&mut receiver, traffic, i)?;
        }
    }
    for Traffic { number, rebuilt, .. } in both {
        assert!(rebuilt, "packet {number} was not rebuilt");
        println!("packet {number}: the packet is the one that went in");
    }
    Ok(())
}
