//! The field's questions to the console, since no call of the card divides: number 44 is theirs.

use crate::rng::Rng;

/// An element, 0 often.
fn element(rng: &mut Rng) -> u8 {
    if rng.chance(20) {
        0
    } else {
        rng.byte()
    }
}

/// A question of the field.
pub fn question(rng: &mut Rng) -> String {
    match rng.below(4) {
        0 => format!("mul {} {}", element(rng), element(rng)),
        1 => format!("div {} {}", element(rng), element(rng)),
        2 => format!("log {}", element(rng)),
        _ => format!("pow {}", rng.below(1_000)),
    }
}
