//! The straightforward way with vectors: a byte for each assignment, a copy moved by EXOR p, and then a butterfly in place.

use super::cube::{Cube, RECORD};

pub fn write_values(records: &[[u8; RECORD]], out: &mut [u8]) {
    for (a, byte) in out.iter_mut().enumerate() {
        *byte = (records.iter().filter(|record| Cube::read(record).holds_at(a as u32)).count() & 1) as u8;
    }
}

/// The polarity with the least cost, then the fewest products, then the smallest p, and how many products it has. The constant's coefficient is the first.
pub fn best(vector: &[u8]) -> (usize, usize) {
    let mut scratch = [0; 256];
    let scratch = &mut scratch[..vector.len()];
    let mut best = ((usize::MAX, usize::MAX), 0);
    for p in 0..vector.len() {
        coefficients(vector, p, scratch);
        let size = scratch.iter().filter(|&&coefficient| coefficient != 0).count();
        let standing = (size - usize::from(scratch[0]), size);
        if standing < best.0 {
            best = (standing, p);
        }
    }
    (best.1, best.0.1)
}

/// Writes the coefficients of `vector` under `p`.
pub fn coefficients(vector: &[u8], p: usize, out: &mut [u8]) {
    for (t, byte) in out.iter_mut().enumerate() {
        *byte = vector[t ^ p];
    }
    transform(out);
}

/// Writes the vector of `coefficients` under `p`.
pub fn vector(coefficients: &[u8], p: usize, out: &mut [u8]) {
    out.copy_from_slice(coefficients);
    transform(out);
    for a in 0..out.len() {
        let moved = a ^ p;
        if a < moved {
            out.swap(a, moved);
        }
    }
}

fn transform(bytes: &mut [u8]) {
    let mut half = 1;
    while half < bytes.len() {
        for block in bytes.chunks_exact_mut(2 * half) {
            let (low, high) = block.split_at_mut(half);
            for (low, high) in low.iter().zip(high) {
                *high ^= low;
            }
        }
        half *= 2;
    }
}
