//! How many losses a cut stands exactly; `sender` has the call among its own.

use crate::sender::{newer, Settings, FRAGMENTS};
use crate::{done, raw, short, Refused};

/// What a cut stands exactly; what it assures is [`Plan::losses`](crate::sender::Plan::losses), and
/// never more.
#[derive(Clone, Copy, Debug, PartialEq, Eq)]
pub struct Endurance {
    /// w, the most lost fragments that leave every chunk at most 48 bytes short, whichever they
    /// are. It is below f, and 0 without FEC.
    pub most: u16,
    /// Fragments.
    pub f: u16,
    /// At i, whether fragment i is in the losing set: w + 1 fragments whose loss it does not stand.
    pub lost: [bool; FRAGMENTS],
}

/// Tells how many losses the cut of a packet of l bytes stands, and a losing set. Refused: 40, 20,
/// 22, 41.
///
/// ```
/// use card::{sender, Settings};
/// let two = sender::endure(&Settings::TWO_LOSSES, 415)?;
/// assert_eq!((two.most, two.f), (3, 12));
/// let lost: Vec<usize> = (0..12).filter(|i| two.lost[*i]).collect();
/// assert_eq!(lost, [0, 1, 2, 3]);
/// # Ok::<(), card::Refused>(())
/// ```
pub fn endure(settings: &Settings, l: usize) -> Result<Endurance, Refused> {
    let mut told = [0; raw::TOLD_ENDURE];
    let Settings { fec, m, mtu, address, rule } = *settings;
    let addressed = address.is_some().into();
    done(raw::endure(fec.into(), m, newer(rule), mtu, addressed, l, &mut told))?;
    Ok(Endurance {
        most: short(&told, 0),
        f: short(&told, 2),
        lost: core::array::from_fn(|i| told[4 + i] != 0),
    })
}
