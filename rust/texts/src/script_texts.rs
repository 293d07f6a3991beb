//! Random scripts as lines of words, with steps that undo each other.

use crate::draft::{Words, spelled};
use crate::random::Random;
use crate::script::{MOST_STEPS, Step};

/// The maps that a script is tried on.
pub struct For {
    pub inputs: usize,
    /// Products of the list that it is compacted for.
    pub products: usize,
    /// One or two, of the map without products that it is settled with.
    pub outputs: usize,
}

impl For {
    pub fn draw(random: &mut Random) -> For {
        let inputs = random.pick(&[0, 1, 2, 3, 4, 8, 31, 32]);
        For { inputs, products: random.below(4), outputs: random.between(1, 2) }
    }
}

fn steps(random: &mut Random) -> usize {
    match random.below(60) {
        0 | 1 => MOST_STEPS - 1 + random.pick(&[0, 1, 1, 2, 3]),
        2..10 => random.below(100),
        _ => random.below(12),
    }
}

fn place(random: &mut Random, count: usize) -> usize {
    if random.one_in(10) {
        return random.pick(&[65535, 65534, 256, 4096]);
    }
    random.below(count + 2)
}

/// One of the inputs; in a wild script now and then another.
fn variable(random: &mut Random, inputs: usize, wild: bool) -> usize {
    if inputs == 0 || wild && random.one_in(5) { random.pick(&[0, 31, 32, 255, inputs]) } else { random.below(inputs) }
}

/// A wild script has steps that are bad for a map, and merges.
fn step(random: &mut Random, script: &For, count: usize, wild: bool) -> Step {
    let (i, j) = (place(random, count), place(random, count));
    // over no variables each of the others is bad
    let kinds = if script.inputs == 0 && !wild { 2 } else { 5 };
    match random.below(if wild { 6 } else { kinds }) {
        0 => Step::Drop(i, j),
        1 => Step::Join(i, j),
        2 => Step::Split(variable(random, script.inputs, wild), i),
        3 => Step::Turn(variable(random, script.inputs, wild), i, j),
        4 => exchange(random, script.inputs, wild),
        _ => Step::Merge(i, j),
    }
}

/// An L step.
fn exchange(random: &mut Random, inputs: usize, wild: bool) -> Step {
    let literal = if wild && random.one_in(4) { random.pick(&[2, 255]) } else { random.below(2) };
    Step::L(variable(random, inputs, wild), literal)
}

/// What undoes a step on a list of `count` products, if anything does.
fn undoing(step: Step, count: usize) -> Step {
    match step {
        Step::Split(_, i) => Step::Join(i, count),
        _ => step,
    }
}

pub fn drawn(random: &mut Random, script: &For) -> Vec<Words> {
    let (steps, wild, idle) = (steps(random), random.one_in(4), random.one_in(2));
    let only_l = script.inputs > 0 && random.one_in(5);
    let mut drawn: Vec<Step> = Vec::new();
    while drawn.len() < steps {
        let count = script.products + random.below(2);
        let next = if only_l { exchange(random, script.inputs, false) } else { step(random, script, count, wild) };
        drawn.push(next);
        if idle && random.one_in(2) {
            drawn.push(undoing(next, count));
        }
    }
    drawn.truncate(steps);
    drawn.iter().map(|step| spelled(&step.to_string())).collect()
}
