//! The calls on vectors of at most 8 variables, in either of two ways.

use super::cube::{Cube, RECORD, records};
use super::kronecker_choices;
use super::kronecker_tables::ByTable;
use super::tree_costs::ByCosts;
use super::tree_lists::ByLists;
use super::trees::Tree;
use super::words::{Packed, WORD_VARIABLES, Word, first_above_one};
use super::{Refusal, Words, bytes, refusal, refuse_if, words};

/// How a vector is kept and worked on. Vectors and coefficients have 2^n bytes, and so have the buffers that are written.
pub trait Way {
    /// The lowest byte above 1.
    fn bad(bits: &[u8]) -> Option<usize>;
    fn write_values(n: u64, records: &[[u8; RECORD]], out: &mut [u8]);
    fn coefficients(n: u64, vector: &[u8], p: usize, out: &mut [u8]);
    fn vector(n: u64, coefficients: &[u8], p: usize, out: &mut [u8]);
    /// The polarity with the least cost, then the fewest products, then the smallest p, and how many products it has.
    fn best(n: u64, vector: &[u8]) -> (usize, usize);
    fn tree(n: u64, vector: &[u8]) -> impl Tree;
    /// For at most 6 variables, the choice that costs least, then the smallest, and its tree.
    fn kronecker(n: u64, vector: &[u8]) -> (usize, impl Tree);
}

/// Variables of a vector, at most.
pub const VECTOR_VARIABLES: u64 = 8;

/// The library's way: four words, or one where that is enough.
pub struct ByWords;

/// The straightforward way: a byte for each assignment.
pub struct ByBytes;

impl Way for ByWords {
    fn bad(bits: &[u8]) -> Option<usize> {
        first_above_one(bits)
    }

    fn write_values(_: u64, records: &[[u8; RECORD]], out: &mut [u8]) {
        Packed::values(records).put(out);
    }

    fn coefficients(n: u64, vector: &[u8], p: usize, out: &mut [u8]) {
        if n <= WORD_VARIABLES {
            return Word::of(vector).transformed(n).turned(n, p).put(out);
        }
        Packed::of(vector).transformed(n).turned(n, p).put(out);
    }

    fn vector(n: u64, coefficients: &[u8], p: usize, out: &mut [u8]) {
        if n <= WORD_VARIABLES {
            return Word::of(coefficients).turned(n, p).transformed(n).put(out);
        }
        Packed::of(coefficients).turned(n, p).transformed(n).put(out);
    }

    fn best(n: u64, vector: &[u8]) -> (usize, usize) {
        if n <= WORD_VARIABLES {
            return Word::of(vector).best(n);
        }
        Packed::of(vector).best(n)
    }

    fn tree(n: u64, vector: &[u8]) -> impl Tree {
        ByCosts::of(n, vector)
    }

    fn kronecker(n: u64, vector: &[u8]) -> (usize, impl Tree) {
        let form = ByTable::of(n, vector);
        (form.choice(), form)
    }
}

impl Way for ByBytes {
    fn bad(bits: &[u8]) -> Option<usize> {
        bits.iter().position(|&byte| byte > 1)
    }

    fn write_values(_: u64, records: &[[u8; RECORD]], out: &mut [u8]) {
        bytes::write_values(records, out);
    }

    fn coefficients(_: u64, vector: &[u8], p: usize, out: &mut [u8]) {
        bytes::coefficients(vector, p, out);
    }

    fn vector(_: u64, coefficients: &[u8], p: usize, out: &mut [u8]) {
        bytes::vector(coefficients, p, out);
    }

    fn best(_: u64, vector: &[u8]) -> (usize, usize) {
        bytes::best(vector)
    }

    fn tree(_: u64, vector: &[u8]) -> impl Tree {
        ByLists::of(vector)
    }

    fn kronecker(_: u64, vector: &[u8]) -> (usize, impl Tree) {
        kronecker_choices::cheapest(vector)
    }
}

#[inline(never)]
pub fn coefficients<W: Way>(n: u64, vector: &[u8], p: u64, out: &mut [u8], answer: &mut Words) {
    *answer = words(checked::<W>(n, vector, p, out.len()).map(|length| {
        W::coefficients(n, vector, p as usize, &mut out[..length]);
        [length as u64]
    }));
}

#[inline(never)]
pub fn vector<W: Way>(n: u64, coefficients: &[u8], p: u64, out: &mut [u8], answer: &mut Words) {
    *answer = words(checked::<W>(n, coefficients, p, out.len()).map(|length| {
        W::vector(n, coefficients, p as usize, &mut out[..length]);
        [length as u64]
    }));
}

#[inline(never)]
pub fn best_polarity<W: Way>(n: u64, vector: &[u8], answer: &mut Words) {
    *answer = words(check_bits::<W>(n, VECTOR_VARIABLES, vector).map(|()| {
        let (p, size) = W::best(n, vector);
        [p as u64, size as u64]
    }));
}

#[inline(never)]
pub fn write_form(n: u64, coefficients: &[u8], p: u64, out: &mut [u8], answer: &mut Words) {
    *answer = words(try_write_form(n, coefficients, p, out));
}

pub fn write_cubes(coefficients: &[u8], p: usize, out: &mut [u8]) {
    let nonzero = coefficients.iter().enumerate().filter(|&(_, &coefficient)| coefficient != 0);
    for ((s, _), record) in nonzero.zip(records(out)) {
        Cube { seen: s as u32, value: (s & !p) as u32 }.store(record);
    }
}

/// Rules 1 and 14.
pub fn check_bits<W: Way>(n: u64, limit: u64, bits: &[u8]) -> Result<(), Refusal> {
    refuse_if(n > limit, 1)?;
    if bits.len() != 1 << n {
        return refusal(14, 1 << n);
    }
    match W::bad(bits) {
        Some(place) => refusal(14, place),
        None => Ok(()),
    }
}

/// Rules 1, 14, 15 and 5; the length.
fn checked<W: Way>(n: u64, bits: &[u8], p: u64, room: usize) -> Result<usize, Refusal> {
    check_bits::<W>(n, VECTOR_VARIABLES, bits)?;
    refuse_if(p >> n != 0, 15)?;
    refuse_if(room < bits.len(), 5)?;
    Ok(bits.len())
}

fn try_write_form(n: u64, coefficients: &[u8], p: u64, out: &mut [u8]) -> Result<[u64; 1], Refusal> {
    check_bits::<ByWords>(n, VECTOR_VARIABLES, coefficients)?;
    refuse_if(p >> n != 0, 15)?;
    let count = coefficients.iter().filter(|&&coefficient| coefficient != 0).count();
    refuse_if(records(out).len() < count, 5)?;
    write_cubes(coefficients, p as usize, out);
    Ok([count as u64])
}
