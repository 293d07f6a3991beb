//! Steps that do and undo, put into a script by looking at the model's present list.

use crate::random::Random;
use crate::scripts::{split, turn};
use model::cube::Cube;
use model::script::{self, STEPS, Step};

/// The script with one to three of them, each with others within it, as far as there is room for its steps.
pub fn with_undoings(random: &mut Random, n: usize, given: &[Cube], capacity: usize, script: &[Step]) -> Vec<Step> {
    let places: Vec<usize> = (0..random.between(1, 3)).map(|_| random.below(script.len() + 1)).collect();
    let mut list = given.to_vec();
    let mut steps = Vec::new();
    for place in 0..=script.len() {
        for _ in places.iter().filter(|&&other| other == place) {
            let room = (STEPS - steps.len() - (script.len() - place)) / 2;
            let depth = random.pick(&[1, 1, 1, 2, 3, 20]).min(room);
            steps.extend(undoing(random, n, &list, capacity, depth));
        }
        let Some(&step) = script.get(place) else { break };
        steps.push(step);
        // After a refused step the list is nobody's concern.
        script::step(&mut list, step, capacity, 0).ok();
    }
    steps
}

/// Steps that do and undo, so many pairs at most, each within the one before.
fn undoing(random: &mut Random, n: usize, list: &[Cube], capacity: usize, depth: usize) -> Vec<Step> {
    if depth == 0 || n == 0 {
        return vec![];
    }
    let first = match random.below(16) {
        0 => Some(any(random, n, list)),
        1..=5 => Some(Step::L { v: random.below(n), literal: random.below(2) as u8 }),
        6..=10 => turn(random, list),
        _ => split(random, n, list, capacity),
    };
    let Some(first) = first else { return vec![] };
    let second = match first {
        // The places named the other way undo it too, and are no pair.
        Step::Split { i, .. } if random.one_in(8) => Step::Join { i: list.len(), j: i },
        Step::Split { i, .. } => Step::Join { i, j: list.len() },
        other => other,
    };
    let mut after = list.to_vec();
    let within = match script::step(&mut after, first, capacity, 0) {
        Ok(()) => undoing(random, n, &after, capacity, depth - 1),
        Err(_) => vec![],
    };
    [vec![first], within, vec![second]].concat()
}

/// A turn or a split that the list may refuse.
fn any(random: &mut Random, n: usize, list: &[Cube]) -> Step {
    let (v, i, j) = (random.below(n), random.below(list.len() + 1), random.below(list.len() + 1));
    if random.one_in(2) { Step::Split { v, i } } else { Step::Turn { v, i, j } }
}
