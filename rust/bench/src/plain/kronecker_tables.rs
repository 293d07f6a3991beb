//! The library's way with Kronecker forms: a table of the products of all choices, in which choices share what they have in common.

use super::cube::{Cube, RECORD};
use super::trees::{ONE, Tree};
use super::words::Word;

/// The choices of 6 variables.
const CHOICES: usize = 729;

/// The library's way: the vector's bits in one word, and the choice that a table has found.
pub struct ByTable {
    n: usize,
    bits: Word,
    least: Least,
}

impl ByTable {
    pub fn of(n: u64, vector: &[u8]) -> ByTable {
        let (n, bits) = (n as usize, Word::of(vector));
        let mut table = [0; CHOICES];
        let table = &mut table[..3usize.pow(n as u32)];
        fill(n, bits.bits(), table);
        ByTable { n, bits, least: least(n, bits.bits(), table) }
    }

    pub fn choice(&self) -> usize {
        self.least.choice
    }
}

impl Tree for ByTable {
    fn products(&self) -> usize {
        self.least.products
    }

    fn cost(&self) -> usize {
        self.least.cost
    }

    fn put(&self, out: &mut [[u8; RECORD]]) {
        put_choice(0, self.n, self.least.choice, self.bits, ONE, out, 0);
    }
}

/// Of some choices the smallest that costs least.
#[derive(Clone, Copy)]
struct Least {
    cost: usize,
    choice: usize,
    products: usize,
}

/// Writes the products of all choices for the function in the lowest bits: its last variable has the highest digit, and each of the
/// three has the sum of two of its halves and their EXOR.
fn fill(left: usize, w: u64, table: &mut [u8]) {
    match left {
        0 => table[0] = w as u8 & 1,
        1 => {
            let (lower, upper) = (w as u8 & 1, (w >> 1) as u8 & 1);
            let change = lower ^ upper;
            table.copy_from_slice(&[lower + upper, lower + change, upper + change]);
        }
        _ => {
            let m = left - 1;
            let upper = w >> (1 << m);
            let (a, b, c) = thirds(table);
            fill(m, w, a);
            fill(m, upper, b);
            fill(m, w ^ upper, c);
            join(a, b, c);
        }
    }
}

#[inline]
fn thirds(table: &mut [u8]) -> (&mut [u8], &mut [u8], &mut [u8]) {
    let third = table.len() / 3;
    let (a, rest) = table.split_at_mut(third);
    let (b, c) = rest.split_at_mut(third);
    (a, b, c)
}

#[inline]
fn join(a: &mut [u8], b: &mut [u8], c: &mut [u8]) {
    for ((a, b), c) in a.iter_mut().zip(b).zip(c) {
        let (lower, upper, change) = (*a, *b, *c);
        (*a, *b, *c) = (lower + upper, lower + change, upper + change);
    }
}

/// With Shannon for the last variable no choice has the constant. With a Davio expansion it is that of the half without the literal.
fn least(left: usize, w: u64, table: &[u8]) -> Least {
    if left == 0 {
        let products = usize::from(table[0]);
        return Least { cost: products - (w & 1) as usize, choice: 0, products };
    }
    let m = left - 1;
    let third = table.len() / 3;
    let shannon = first_least(&table[..third]);
    let positive = least(m, w, &table[third..2 * third]).after(third);
    let negative = least(m, w >> (1 << m), &table[2 * third..]).after(2 * third);
    shannon.or(positive).or(negative)
}

/// The first of the entries with the fewest products.
#[inline]
fn first_least(table: &[u8]) -> Least {
    let (choice, &products) = table.iter().enumerate().min_by_key(|(_, products)| **products).expect("there is one");
    Least { cost: products.into(), choice, products: products.into() }
}

impl Least {
    #[inline]
    fn after(self, choices: usize) -> Least {
        Least { choice: self.choice + choices, ..self }
    }

    #[inline]
    fn or(self, later: Least) -> Least {
        if later.cost < self.cost { later } else { self }
    }
}

/// Writes the products of a choice to which a product leads, from a place on; answers the next place.
fn put_choice(k: usize, left: usize, choice: usize, w: Word, cube: Cube, out: &mut [[u8; RECORD]], at: usize) -> usize {
    if left == 0 {
        if w.first() == 0 {
            return at;
        }
        cube.store(&mut out[at]);
        return at + 1;
    }
    let (first, second) = match choice % 3 {
        0 => ((0, w), (1, w.upper(k))),
        1 => ((2, w), (1, w.lowered(k))),
        _ => ((2, w.upper(k)), (0, w.lowered(k))),
    };
    let (v, rest) = (k as u32, choice / 3);
    let next = put_choice(k + 1, left - 1, rest, first.1, cube.put(v, first.0), out, at);
    put_choice(k + 1, left - 1, rest, second.1, cube.put(v, second.0), out, next)
}
