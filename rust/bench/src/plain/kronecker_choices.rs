//! The straightforward way with Kronecker forms: for each choice a copy of the vector's bytes, expanded in place and counted.

use super::cube::Cube;
use super::tree_lists::ByLists;
use super::trees::ONE;

/// Values of a vector of 6 variables.
const VALUES: usize = 64;

/// The choice that costs least, and its list.
pub fn cheapest(vector: &[u8]) -> (usize, ByLists) {
    let n = vector.len().ilog2();
    let mut scratch = [0; VALUES];
    let values = &mut scratch[..vector.len()];
    let (mut cost, mut choice) = (usize::MAX, 0);
    for other in 0..3usize.pow(n) {
        expand(other, vector, values);
        let other_cost = cost_of(other, n, values);
        if other_cost < cost {
            (cost, choice) = (other_cost, other);
        }
    }
    expand(choice, vector, values);
    (choice, ByLists { cost, list: list(choice, n, values) })
}

fn digit(choice: usize, k: u32) -> usize {
    choice / 3usize.pow(k) % 3
}

/// The values of a choice's products: bit k of an index is the branch of variable k.
fn expand(choice: usize, vector: &[u8], values: &mut [u8]) {
    values.copy_from_slice(vector);
    for k in 0..vector.len().ilog2() {
        let digit = digit(choice, k);
        for block in values.chunks_exact_mut(2 << k) {
            let (first, second) = block.split_at_mut(1 << k);
            for (first, second) in first.iter_mut().zip(second) {
                let (lower, upper) = (*first, *second);
                (*first, *second) = match digit {
                    0 => (lower, upper),
                    1 => (lower, lower ^ upper),
                    _ => (upper, lower ^ upper),
                };
            }
        }
    }
}

/// The first product is the constant where no variable is expanded by Shannon.
fn cost_of(choice: usize, n: u32, values: &[u8]) -> usize {
    let products = values.iter().filter(|&&value| value == 1).count();
    let bare = (0..n).all(|k| digit(choice, k) != 0);
    products - usize::from(bare && values[0] == 1)
}

/// The products, by the branches of variable 0, then 1 and so on.
fn list(choice: usize, n: u32, values: &[u8]) -> Vec<Cube> {
    let branches = |place: usize| (0..n).fold(0, |branches, k| branches | (place >> (n - 1 - k) & 1) << k);
    let places = (0..values.len()).map(branches).filter(|&s| values[s] == 1);
    let code = |k, s: usize| [[0, 1], [2, 1], [2, 0]][digit(choice, k)][s >> k & 1];
    places.map(|s| (0..n).fold(ONE, |cube, k| cube.put(k, code(k, s)))).collect()
}
