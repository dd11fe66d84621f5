//! Cuts a packet, loses a fragment and rebuilds it from the others.

use card::receiver::{LENT, PACKET};
use card::sender::SENT;
use card::{af, sender, Received, Receiver, Refused, Settings};

fn main() -> Result<(), Refused> {
    let (mut packet, mut sent, mut out) = ([0; PACKET], [0; SENT], [0; PACKET]);
    let length = af::wrap(7, true, &[0x5A; 3_000], &mut packet)?;
    let split = sender::fragments(&Settings::HOUSE, 1, &packet[..length], &mut sent)?;
    let mut lent = [0; LENT];
    let mut receiver = Receiver::new(&mut lent);
    for datagram in split.parts(&sent).skip(1) {
        let answer = receiver.receive(None, datagram, &mut out)?;
        if let Received::Delivered { length, missing, .. } = answer {
            assert_eq!(out[..length], packet[..length]);
            println!("{length} bytes of {} fragments without {missing}", split.f);
            break;
        }
    }
    Ok(())
}
