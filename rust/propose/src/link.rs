//! Exorlink: two products that differ in some variables become as many products as these are, one for each of them: on the way from the one to the other, a variable after
//! the other, each change is the product with the third code there. The ways are the orders of the variables.

use crate::product::Product;
use crate::random::Random;
use crate::work::{NO, Operation, Work};

/// The most variables in which two products are linked.
pub const MOST: usize = 4;

/// An order of the differing variables, as bits.
#[derive(Clone, Copy)]
pub struct Way {
    pub bits: [u32; MOST],
    pub count: usize,
    /// By how much the list should get dearer.
    pub dearer: i32,
}

/// Any order of the variables of a set, and how many they are.
fn drawn(mut set: u32, random: &mut Random) -> ([u32; MOST], usize) {
    let mut bits = [0; MOST];
    let count = set.count_ones() as usize;
    for bit in &mut bits[..count] {
        *bit = set & set.wrapping_neg();
        set ^= *bit;
    }
    random.shuffle(&mut bits[..count]);
    (bits, count)
}

/// A way that makes the list as short as one can; of several any one, since the variables are drawn.
pub fn best(work: &Work, from: Product, to: Product, random: &mut Random) -> Way {
    let (bits, count) = drawn(from.differing(to), random);
    let third = from.third(to);
    let all = (1 << count) - 1;
    // for each set of changed variables the least that the way there costs, and the last variable on it
    let mut least = [(i32::MAX, 0); 1 << MOST];
    let mut corners = [from; 1 << MOST];
    least[0].0 = 0;
    for set in 0..all {
        for place in (0..count).filter(|place| set >> place & 1 == 0) {
            let after = set | 1 << place;
            let made = corners[set].with(bits[place], third);
            let but = u32::from(set == 0) + u32::from(after == all);
            let sum = least[set].0 + work.dearer_with(made, but);
            if sum < least[after].0 {
                least[after] = (sum, place);
            }
            corners[after] = corners[set].with(bits[place], to);
        }
    }
    let mut way = Way { bits, count, dearer: least[all].0 - 2 };
    let mut set = all;
    for step in (0..count).rev() {
        let place = least[set].1;
        way.bits[step] = bits[place];
        set ^= 1 << place;
    }
    way
}

/// Goes the way: splits, and at last a turn; then each product that was made is dropped or joined where it can be.
pub fn go(work: &mut Work, from: u32, to: u32, way: &Way, random: &mut Random) {
    let (mut product, mut number) = work.take_noted(from);
    let (end, end_number) = work.take_noted(to);
    let third = product.third(end);
    let mut made = [(product, NO); MOST];
    for (step, &bit) in way.bits[..way.count - 2].iter().enumerate() {
        let (edge, next) = (product.with(bit, third), product.with(bit, end));
        let [low, high] = product.others(bit.trailing_zeros());
        let numbers = work.note(Operation::Split, bit.trailing_zeros(), [number, NO], &[low, high]);
        let (edge_number, next_number) = if low == edge { (numbers[0], numbers[1]) } else { (numbers[1], numbers[0]) };
        made[step] = (edge, edge_number);
        (product, number) = (next, next_number);
    }
    let (first, last) = (way.bits[way.count - 2], way.bits[way.count - 1]);
    let turned = [product.with(first, third), end.with(last, third)];
    let numbers = work.note(Operation::Turn, first.trailing_zeros(), [number, end_number], &turned);
    made[way.count - 2] = (turned[0], numbers[0]);
    made[way.count - 1] = (turned[1], numbers[1]);
    for &(product, number) in &made[..way.count] {
        work.reduce(product, number, random);
    }
}
