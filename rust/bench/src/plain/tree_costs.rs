//! The library's way with trees: by the costs of a function's halves, of which a node's expansion is worked out before its branches are written.

use super::cube::{Cube, RECORD};
use super::trees::{ONE, Tree};
use super::words::Packed;

/// The library's way: the vector's bits in four words, and its costs. The halves without the next variable stay where they are.
pub struct ByCosts {
    n: usize,
    bits: Packed,
    costs: Costs,
}

impl ByCosts {
    pub fn of(n: u64, vector: &[u8]) -> ByCosts {
        let (n, bits) = (n as usize, Packed::of(vector));
        ByCosts { n, bits, costs: least_costs(0, n, bits) }
    }
}

impl Tree for ByCosts {
    fn products(&self) -> usize {
        self.costs.products
    }

    fn cost(&self) -> usize {
        self.costs.cost
    }

    fn put(&self, out: &mut [[u8; RECORD]]) {
        put_tree(0, self.n, true, self.bits, ONE, out, 0);
    }
}

/// Of a function: the least cost of a tree to which no literal leads, its products, and the least cost of one to which a literal leads.
#[derive(Clone, Copy)]
struct Costs {
    cost: usize,
    products: usize,
    paid: usize,
}

#[derive(Clone, Copy)]
enum Expansion {
    Shannon,
    Positive,
    Negative,
}

/// Any two of the three functions are the branches.
#[inline]
fn joined(lower: usize, upper: usize, change: usize) -> usize {
    (lower + upper.min(change)).min(upper + change)
}

#[inline]
fn paid_of_one(k: usize, w: Packed) -> usize {
    joined(w.first(), w.upper(k).first(), w.lowered(k).first())
}

#[inline]
fn paid_of_two(k: usize, w: Packed) -> usize {
    joined(paid_of_one(k + 1, w), paid_of_one(k + 1, w.upper(k)), paid_of_one(k + 1, w.lowered(k)))
}

fn least_paid(k: usize, left: usize, w: Packed) -> usize {
    match left {
        0 => w.first(),
        1 => paid_of_one(k, w),
        2 => paid_of_two(k, w),
        _ => joined(
            least_paid(k + 1, left - 1, w),
            least_paid(k + 1, left - 1, w.upper(k)),
            least_paid(k + 1, left - 1, w.lowered(k)),
        ),
    }
}

fn least_costs(k: usize, left: usize, w: Packed) -> Costs {
    if left == 0 {
        return Costs { cost: 0, products: w.first(), paid: w.first() };
    }
    node_costs(
        least_costs(k + 1, left - 1, w),
        least_costs(k + 1, left - 1, w.upper(k)),
        least_paid(k + 1, left - 1, w.lowered(k)),
    )
}

#[inline]
fn node_costs(lower: Costs, upper: Costs, change: usize) -> Costs {
    let shannon = lower.paid + upper.paid;
    let positive = lower.cost + change;
    let negative = upper.cost + change;
    let paid = joined(lower.paid, upper.paid, change);
    match first_least(shannon, positive, negative) {
        Expansion::Shannon => Costs { cost: shannon, products: shannon, paid },
        Expansion::Positive => Costs { cost: positive, products: lower.products + change, paid },
        Expansion::Negative => Costs { cost: negative, products: upper.products + change, paid },
    }
}

#[inline]
fn first_least(shannon: usize, positive: usize, negative: usize) -> Expansion {
    if shannon <= positive && shannon <= negative {
        Expansion::Shannon
    } else if positive <= negative {
        Expansion::Positive
    } else {
        Expansion::Negative
    }
}

/// The expansion at a node by variable k, with so many variables left below it.
fn choose(k: usize, left: usize, free: bool, w: Packed) -> Expansion {
    let change = least_paid(k + 1, left, w.lowered(k));
    if free {
        let (lower, upper) = (least_costs(k + 1, left, w), least_costs(k + 1, left, w.upper(k)));
        return first_least(lower.paid + upper.paid, lower.cost + change, upper.cost + change);
    }
    let (lower, upper) = (least_paid(k + 1, left, w), least_paid(k + 1, left, w.upper(k)));
    first_least(lower + upper, lower + change, upper + change)
}

/// Writes the products of the tree to which a product leads, from a place on; answers the next place.
fn put_tree(k: usize, left: usize, free: bool, w: Packed, cube: Cube, out: &mut [[u8; RECORD]], at: usize) -> usize {
    if left == 0 {
        if w.first() == 0 {
            return at;
        }
        cube.store(&mut out[at]);
        return at + 1;
    }
    let by = choose(k, left - 1, free, w);
    let (first, second) = match by {
        Expansion::Shannon => ((0, w), (1, w.upper(k))),
        Expansion::Positive => ((2, w), (1, w.lowered(k))),
        Expansion::Negative => ((2, w.upper(k)), (0, w.lowered(k))),
    };
    let v = k as u32;
    let next = put_tree(k + 1, left - 1, free && first.0 == 2, first.1, cube.put(v, first.0), out, at);
    put_tree(k + 1, left - 1, false, second.1, cube.put(v, second.0), out, next)
}
