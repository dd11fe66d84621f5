//! Clause 7.3.1: the field of 256 over x^8 + x^4 + x^3 + x^2 + 1, without tables.

use crate::{number, refuse, Answer};

/// α is 2: times α is a shift, and x^8 goes over into x^4 + x^3 + x^2 + 1.
fn times_alpha(a: u8) -> u8 {
    let reduction = if a & 0x80 != 0 { 0x1D } else { 0 };
    a << 1 ^ reduction
}

/// The product by shifting a and adding where b has a bit.
pub fn product(a: u8, b: u8) -> u8 {
    let mut sum = 0;
    let mut shifted = a;
    for bit in 0..8 {
        if b >> bit & 1 == 1 {
            sum ^= shifted;
        }
        shifted = times_alpha(shifted);
    }
    sum
}

/// α^exponent; the exponent counts modulo 255.
pub fn power(exponent: u64) -> u8 {
    (0..exponent % 255).fold(1, |value, _| times_alpha(value))
}

/// The inverse of an element that is not zero: b^254, the product of b^2, b^4, .. b^128.
fn inverse(b: u8) -> u8 {
    let mut square = b;
    let mut result = 1;
    for _ in 0..7 {
        square = product(square, square);
        result = product(result, square);
    }
    result
}

/// a divided by b; by zero it is 44, and zero by zero too.
pub fn quotient(a: u8, b: u8) -> Answer<u8> {
    refuse(b == 0, number::ZERO)?;
    Ok(product(a, inverse(b)))
}

/// The l below 255 with α^l = a, by trying one after another.
pub fn logarithm(a: u8) -> Answer<u8> {
    (0..255).find(|l| power(u64::from(*l)) == a).ok_or(number::ZERO)
}
