//! "Fixed polarity".

use crate::cost::standing;
use crate::cube::Cube;

/// A best polarity and the number of products of its form.
#[derive(Clone, Copy, Debug, PartialEq, Eq)]
pub struct Best {
    pub polarity: usize,
    pub size: usize,
}

/// "The parity of the vector's bytes at t EXOR p, over all t within s."
pub fn coefficient(vector: &[u8], p: usize, s: usize) -> u8 {
    let ones = (0..=s).filter(|&t| within(t, s) && vector[t ^ p] == 1).count();
    (ones % 2) as u8
}

/// The coefficients of all variable sets, in order.
pub fn coefficients(vector: &[u8], p: usize) -> Vec<u8> {
    (0..vector.len()).map(|s| coefficient(vector, p, s)).collect()
}

/// "The parity of the coefficients of all s within a EXOR p is the byte at a."
pub fn vector(coefficients: &[u8], p: usize) -> Vec<u8> {
    let byte = |a: usize| {
        let ones = (0..coefficients.len()).filter(|&s| within(s, a ^ p) && coefficients[s] == 1).count();
        (ones % 2) as u8
    };
    (0..coefficients.len()).map(byte).collect()
}

/// "One cube per nonzero coefficient, s ascending, each variable of s with p's literal."
pub fn form(n: usize, coefficients: &[u8], p: usize) -> Vec<Cube> {
    let cube = |s: usize| {
        (0..n)
            .map(|k| match (s >> k & 1, p >> k & 1) {
                (0, _) => 2,
                (_, 0) => 1,
                _ => 0,
            })
            .collect()
    };
    (0..coefficients.len()).filter(|&s| coefficients[s] != 0).map(cube).collect()
}

/// Document 02, Two: "The best polarity has the least cost, then the fewest products, then the smallest p."
pub fn best(n: usize, vector: &[u8]) -> Best {
    let form = |p| form(n, &coefficients(vector, p), p);
    let (_, polarity) = (0..vector.len()).map(|p| (standing(&form(p)), p)).min().unwrap();
    Best { polarity, size: form(polarity).len() }
}

fn within(t: usize, s: usize) -> bool {
    t & !s == 0
}
