//! Document 02, Eleven: "Scripts full of nothing."

use crate::script::Step;

/// "It removes the first pair from the front .. and it starts again at the front until none is left."
pub fn compacted(count: usize, script: &[Step]) -> Vec<Step> {
    let mut left = script.to_vec();
    while let Some(place) = first_pair(count, &left) {
        left.drain(place..place + 2);
    }
    left
}

/// The place of the first step of the first pair from the front.
pub fn first_pair(given: usize, script: &[Step]) -> Option<usize> {
    let mut count = given;
    for place in 1..script.len() {
        if is_pair(count, script[place - 1], script[place]) {
            return Some(place - 1);
        }
        count = counted(count, script[place - 1]);
    }
    None
}

/// "Two equal L steps or two equal turns in a row, or a split followed at once by the join of its place with the place just
/// appended, named in that order", where the count before the first of them is this one.
fn is_pair(count: usize, first: Step, second: Step) -> bool {
    match first {
        Step::L { .. } | Step::Turn { .. } => first == second,
        Step::Split { i, .. } => second == Step::Join { i, j: count },
        Step::Drop { .. } | Step::Join { .. } => false,
    }
}

/// "It takes the given count and counts along, never below zero."
pub fn counted(count: usize, step: Step) -> usize {
    match step {
        Step::Drop { .. } => count.saturating_sub(2),
        Step::Join { .. } => count.saturating_sub(1),
        Step::Split { .. } => count + 1,
        Step::Turn { .. } | Step::L { .. } => count,
    }
}
