//! Truth vectors for trees and Kronecker forms, by chance: of random functions, and of functions that have few ones, few coefficients
//! under a polarity, few products in a tree or of a choice, or as many values as there are numbers of ones among the variables.

use crate::random::Random;
use model::cube::truth_vector;
use model::polarity;
use model::trees::{Expansion, Tree};

/// The vector of a function of so many variables, which is not the constant 0 where that is said.
pub fn vector(random: &mut Random, width: usize, not_zero: bool) -> Vec<u8> {
    let length = 1 << width;
    let vector = match random.below(12) {
        0 => vec![random.below(2) as u8; length],
        1 | 2 => few_ones(random, length),
        3 | 4 => symmetric(random, length),
        5 | 6 => {
            let p = random.below(length);
            polarity::vector(&few_ones(random, length), p)
        }
        7 | 8 => few_products(random, &vec![&Expansion::ALL[..]; width]),
        9 => {
            let choice: Vec<[Expansion; 1]> = (0..width).map(|_| [random.pick(&Expansion::ALL)]).collect();
            few_products(random, &choice.iter().map(|one| &one[..]).collect::<Vec<_>>())
        }
        _ => random.bits(length),
    };
    if not_zero && !vector.contains(&1) { vec![1; length] } else { vector }
}

/// Up to five ones, or as many zeros.
fn few_ones(random: &mut Random, length: usize) -> Vec<u8> {
    let most = random.below(2) as u8;
    let mut bits = vec![most; length];
    for _ in 0..random.below(6) {
        bits[random.below(length)] = 1 - most;
    }
    bits
}

/// The value goes by the number of ones of the assignment alone.
fn symmetric(random: &mut Random, length: usize) -> Vec<u8> {
    let values = random.bits(9);
    (0..length).map(|a| values[a.count_ones() as usize]).collect()
}

/// The vector of a tree that has, at every node of a variable, one of the variable's expansions.
fn few_products(random: &mut Random, expansions: &[&[Expansion]]) -> Vec<u8> {
    let ones = random.between(2, 6);
    truth_vector(expansions.len(), &tree(random, expansions, ones).list(&[]))
}

/// Such a tree, in which one constant of so many is 1.
fn tree(random: &mut Random, expansions: &[&[Expansion]], one_in: usize) -> Tree {
    let Some((here, below)) = expansions.split_first() else {
        return Tree::Constant(u8::from(random.one_in(one_in)));
    };
    let by = random.pick(here);
    let (first, second) = (tree(random, below, one_in), tree(random, below, one_in));
    Tree::node(by, [&first, &second])
}
