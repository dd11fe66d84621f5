//! Clauses 7.3.1 and 7.4.4: the shortened RS(255, 207) code with roots α^1 to α^48.
//!
//! A chunk is k data bytes and 48 parity bytes. As a polynomial its data bytes are the
//! coefficients of x^254 downward, its parity those of x^47 downward, and zeros stand between.

use crate::field::{power, product, quotient};
use crate::{number, refuse, Answer};

/// p, the parity bytes of a chunk.
pub const PARITY: usize = 48;
/// The most data bytes of a chunk.
pub const MOST_DATA: usize = 207;
/// The coefficients of a whole word.
const WORD: usize = MOST_DATA + PARITY;

/// What filling a chunk comes to.
#[derive(Debug, PartialEq)]
pub enum Filling {
    /// The one word of the code that agrees with the bytes present.
    Filled(Vec<u8>),
    /// No word of the code agrees.
    None,
    /// More than 48 bytes are missing.
    NotEnough,
}

/// The generator polynomial, the product of x - α^i for i from 1 to 48, highest power first.
fn generator() -> Vec<u8> {
    let mut polynomial = vec![1];
    for i in 1..=PARITY as u64 {
        let root = power(i);
        polynomial.push(0);
        for at in (1..polynomial.len()).rev() {
            polynomial[at] ^= product(polynomial[at - 1], root);
        }
    }
    polynomial
}

/// The parity of 1 to 207 data bytes: the remainder of the data polynomial by the generator.
pub fn parity(data: &[u8]) -> Answer<Vec<u8>> {
    refuse(data.is_empty() || data.len() > MOST_DATA, number::SIZE)?;
    let generator = generator();
    let mut remainder = vec![0; WORD];
    remainder[..data.len()].copy_from_slice(data);
    for at in 0..MOST_DATA {
        let factor = remainder[at];
        for (place, coefficient) in remainder[at..].iter_mut().zip(&generator) {
            *place ^= product(factor, *coefficient);
        }
    }
    Ok(remainder.split_off(MOST_DATA))
}

/// The power of x whose coefficient is byte `at` of a chunk with k data bytes.
fn exponent(k: usize, at: usize) -> u64 {
    let above = if at < k { WORD - 1 } else { PARITY - 1 + k };
    (above - at) as u64
}

/// The 48 values of the chunk's polynomial at α^1 to α^48.
fn syndromes(k: usize, chunk: &[u8]) -> Vec<u8> {
    (1..=PARITY as u64).map(|j| value_at(k, chunk, power(j))).collect()
}

/// The value of the chunk's polynomial at x (Horner's rule, through the zeros too).
fn value_at(k: usize, chunk: &[u8], x: u8) -> u8 {
    let (data, parity) = chunk.split_at(k);
    let zeros = vec![0; MOST_DATA - k];
    let word = data.iter().chain(&zeros).chain(parity);
    word.fold(0, |value, coefficient| product(value, x) ^ coefficient)
}

/// Fills the missing bytes of a chunk of k + 48 bytes.
///
/// With the missing bytes as zeros, the syndromes are those of the missing bytes alone. As many of
/// these equations as bytes are missing give the bytes; then all 48 are tested.
pub fn fill(k: usize, chunk: &[u8], missing: &[bool]) -> Answer<Filling> {
    let length = k.saturating_add(PARITY);
    refuse(k == 0 || k > MOST_DATA, number::SIZE)?;
    refuse(chunk.len() != length || missing.len() != length, number::SIZE)?;
    let places: Vec<usize> = (0..length).filter(|at| missing[*at]).collect();
    if places.len() > PARITY {
        return Ok(Filling::NotEnough);
    }
    let mut word = chunk.to_vec();
    for at in &places {
        word[*at] = 0;
    }
    let values = solve(equations(k, &word, &places));
    for (at, value) in places.iter().zip(values) {
        word[*at] = value;
    }
    let agrees = syndromes(k, &word).iter().all(|syndrome| *syndrome == 0);
    Ok(if agrees { Filling::Filled(word) } else { Filling::None })
}

/// One equation a missing byte: the sum of Y X^j, over the missing bytes Y, is syndrome j, where X
/// is α to the exponent of Y's place. Each row holds the coefficients, and last the right side.
fn equations(k: usize, word: &[u8], places: &[usize]) -> Vec<Vec<u8>> {
    let locators: Vec<u8> = places.iter().map(|at| power(exponent(k, *at))).collect();
    let mut powers = locators.clone();
    let mut rows = Vec::new();
    for syndrome in syndromes(k, word).into_iter().take(places.len()) {
        rows.push([powers.as_slice(), &[syndrome]].concat());
        for (power, locator) in powers.iter_mut().zip(&locators) {
            *power = product(*power, *locator);
        }
    }
    rows
}

/// The unknowns of a square system, by elimination (Gauss and Jordan).
///
/// The equations for different places have exactly one solution, so a pivot is always found; were
/// it not, the unknowns stay what they are and the test of all syndromes says that none agrees.
fn solve(mut rows: Vec<Vec<u8>>) -> Vec<u8> {
    for column in 0..rows.len() {
        let Some(pivot) = (column..rows.len()).find(|row| rows[*row][column] != 0) else {
            break;
        };
        rows.swap(column, pivot);
        scale(&mut rows[column], column);
        eliminate(&mut rows, column);
    }
    rows.iter().map(|row| row[rows.len()]).collect()
}

/// Divides a row by its entry in `column`, which is not zero.
fn scale(row: &mut [u8], column: usize) {
    let factor = quotient(1, row[column]).expect("a pivot is not zero");
    for entry in row.iter_mut() {
        *entry = product(*entry, factor);
    }
}

/// Takes multiples of row `column` from all others, so that they have zero in that column.
fn eliminate(rows: &mut [Vec<u8>], column: usize) {
    let pivot = rows[column].clone();
    for (at, row) in rows.iter_mut().enumerate() {
        let factor = row[column];
        if at != column && factor != 0 {
            for (entry, above) in row.iter_mut().zip(&pivot).skip(column) {
                *entry ^= product(factor, *above);
            }
        }
    }
}
