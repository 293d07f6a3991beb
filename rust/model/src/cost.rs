//! Document 02, Two: "The card has a free inverter behind each array, so the product without literals is free, once."

use crate::cube::Cube;

/// "The number of products, less one if at least one of them has no literal."
pub fn cost(list: &[Cube]) -> usize {
    let free = list.iter().any(|cube| cube.iter().all(|&code| code == 2));
    if free { list.len() - 1 } else { list.len() }
}

/// What lists are compared by: cost, then products.
pub fn standing(list: &[Cube]) -> (usize, usize) {
    (cost(list), list.len())
}
