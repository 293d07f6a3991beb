//! Labels that the values of a list are looked at.

use crate::differ::Case;
use crate::random::Random;
use model::cube::Cube;

/// All labels of few variables; of many the first, the last, and some at which one of the products is true. Fewer for a long list.
pub fn labels(case: &Case, cubes: &[Cube]) -> Vec<u64> {
    let all = (1u64 << case.n) - 1;
    if case.n < 4 && cubes.len() < 64 {
        return (0..=all).collect();
    }
    let mut random = Random::new((case.input.len() + case.script.len()) as u64);
    let most = if cubes.len() < 64 { 6 } else { 1 };
    let of_a_product = (0..most.min(cubes.len())).map(|_| {
        let cube = &cubes[random.below(cubes.len())];
        let literals = |code: u8| (0..cube.len()).filter(|&k| cube[k] == code).map(|k| 1 << k).sum::<u64>();
        random.next() & all & !literals(0) | literals(1)
    });
    of_a_product.chain([0, all]).collect()
}
