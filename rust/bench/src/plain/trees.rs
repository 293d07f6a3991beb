//! Write tree and write kronecker, in either way.

use super::cube::{Cube, RECORD, records};
use super::vectors::{VECTOR_VARIABLES, Way, check_bits};
use super::{Refusal, Words, refuse_if, words};

#[inline(never)]
pub fn write_tree<W: Way>(n: u64, vector: &[u8], out: &mut [u8], answer: &mut Words) {
    *answer = words(try_write_tree::<W>(n, vector, out));
}

fn try_write_tree<W: Way>(n: u64, vector: &[u8], out: &mut [u8]) -> Result<[u64; 2], Refusal> {
    check_bits::<W>(n, VECTOR_VARIABLES, vector)?;
    let tree = W::tree(n, vector);
    refuse_if(records(out).len() < tree.products(), 5)?;
    tree.put(records(out));
    Ok([tree.products(), tree.cost()].map(|count| count as u64))
}

#[inline(never)]
pub fn write_kronecker<W: Way>(n: u64, vector: &[u8], out: &mut [u8], answer: &mut Words) {
    *answer = words(try_write_kronecker::<W>(n, vector, out));
}

fn try_write_kronecker<W: Way>(n: u64, vector: &[u8], out: &mut [u8]) -> Result<[u64; 3], Refusal> {
    check_bits::<W>(n, KRONECKER_VARIABLES, vector)?;
    let (choice, tree) = W::kronecker(n, vector);
    refuse_if(records(out).len() < tree.products(), 5)?;
    tree.put(records(out));
    Ok([tree.cost(), choice, tree.products()].map(|word| word as u64))
}

/// Variables of a Kronecker form, at most.
const KRONECKER_VARIABLES: u64 = 6;

/// The cheapest tree of a vector, of all or of those that have one expansion for each variable.
pub trait Tree {
    fn products(&self) -> usize;
    fn cost(&self) -> usize;
    /// Writes its list, for which there is room.
    fn put(&self, out: &mut [[u8; RECORD]]);
}

/// The product to which no literal leads.
pub const ONE: Cube = Cube { seen: 0, value: 0 };
