//! The rules that a step breaks, each looked at by itself: the first of them is answered.

use crate::differ::Case;
use model::cube::{Cube, RECORD};
use model::script::{self, STEP, Step, differing};

/// The refusals at a step, in the order in which they are tested.
pub const AT_A_STEP: [u64; 7] = [10, 11, 16, 17, 18, 19, 13];

/// The rules that one step can break together: the first of each pair is answered, and the second is not.
pub const TOGETHER: [(u64, u64); 10] =
    [(10, 11), (10, 16), (10, 17), (10, 18), (10, 19), (10, 13), (11, 17), (11, 18), (11, 19), (18, 19)];

/// Whether the number of differing variables can be this in a refusal.
pub fn can_differ_in(number: u64, differing: u64) -> bool {
    match number {
        16 => differing != 0,
        17 => differing != 1,
        18 => differing != 2,
        19 => differing == 2,
        _ => differing == 0,
    }
}

/// The rules broken by the first wrong step of a case that keeps rules 1 to 8, looking no further than the step at
/// `place`; none where that one breaks rule 9 and those before it break nothing.
pub fn broken_in(case: &Case, place: usize) -> Vec<u64> {
    let n = case.n as usize;
    let mut list = case.cubes();
    let capacity = (case.work.len() / RECORD).min(4096);
    for step in case.script.chunks(STEP).take(place + 1).filter_map(|bytes| script::decoded(n, bytes)) {
        let broken = broken(&list, step, capacity);
        if !broken.is_empty() {
            return broken;
        }
        script::step(&mut list, step, capacity, 0).expect("a step that breaks no rule");
    }
    vec![]
}

/// In the order of [`AT_A_STEP`]. Past the end of the list stands the product with no literal, as it does in a cleared
/// buffer, so that a step at such a place can also break the rules on cubes. Of 19 only "a variable where the cubes agree"
/// is looked at, whatever the number of differing variables.
pub fn broken(list: &[Cube], step: Step, capacity: usize) -> Vec<u64> {
    let outside = |place: usize| place >= list.len();
    let cube = |place: usize, like: usize| match list.get(place).or(list.get(like)) {
        Some(cube) if outside(place) => vec![2; cube.len()],
        Some(cube) => cube.clone(),
        None => vec![],
    };
    let apart = |i, j| differing(&cube(i, j), &cube(j, i));
    let breaks = |number: u64| match (number, step) {
        (10, Step::Drop { i, j } | Step::Join { i, j } | Step::Turn { i, j, .. }) => outside(i) || outside(j),
        (10, Step::Split { i, .. }) => outside(i),
        (11, Step::Drop { i, j } | Step::Join { i, j } | Step::Turn { i, j, .. }) => i == j,
        (16, Step::Drop { i, j }) => !apart(i, j).is_empty(),
        (17, Step::Join { i, j }) => apart(i, j).len() != 1,
        (18, Step::Turn { i, j, .. }) => apart(i, j).len() != 2,
        (19, Step::Turn { v, i, j }) => !apart(i, j).contains(&v),
        (13, Step::Split { .. }) => list.len() == capacity,
        _ => false,
    };
    AT_A_STEP.into_iter().filter(|&number| breaks(number)).collect()
}
