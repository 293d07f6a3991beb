//! Scripts for shared lists that mostly succeed: each step is chosen by looking at the model's present list.

use crate::random::Random;
use crate::shared_broken::broken;
use model::script::Step::{Drop, Join, L, Split, Turn};
use model::script::differing;
use model::shared::Step::{self, Merge, Plain};
use model::shared::{self, Shared};

/// How many partners are looked at for one step.
const LOOKS: usize = 64;

/// A script of `length` steps for a list; where `mistake` is a refusal at a step, one of the steps is refused with it, if
/// the list allows that.
pub fn script(
    random: &mut Random,
    n: usize,
    given: &Shared,
    capacity: usize,
    length: usize,
    mistake: Option<u64>,
) -> Vec<Step> {
    let mut list = given.clone();
    let mut steps = Vec::new();
    let mistaken = mistake.map(|number| (random.below(length.max(1)), number));
    while steps.len() < length {
        if let Some((at, number)) = mistaken
            && steps.len() >= at
            && let Some(step) = refused(random, n, &list, capacity, number)
        {
            steps.push(step);
            // What follows is never reached, and may be anything.
            steps.extend((0..random.below(3)).filter_map(|_| accepted(random, n, given, capacity)));
            break;
        }
        let to_fill = matches!(mistaken, Some((_, 13)));
        let step = if to_fill { split(random, n, &list, capacity) } else { None };
        let Some(step) = step.or_else(|| accepted(random, n, &list, capacity)) else { break };
        shared::step(&mut list, step, capacity, 0).expect("the step was chosen for this list");
        steps.push(step);
    }
    steps
}

/// A step that the list allows, or nothing if none was found.
fn accepted(random: &mut Random, n: usize, list: &Shared, capacity: usize) -> Option<Step> {
    for _ in 0..6 {
        let step = match random.below(7) {
            0 => partner(random, list, 0, Some(true)).map(|(i, j)| Plain(Drop { i, j })),
            1 => partner(random, list, 1, Some(true)).map(|(i, j)| Plain(Join { i, j })),
            2 => split(random, n, list, capacity),
            3 => partner(random, list, 2, Some(true)).map(|(i, j)| Plain(turn(random, list, i, j))),
            4 | 5 => partner(random, list, 0, Some(false)).map(|(i, j)| Merge { i, j }),
            _ => (n > 0).then(|| Plain(L { v: random.below(n), literal: random.below(2) as u8 })),
        };
        if step.is_some() {
            return step;
        }
    }
    None
}

/// A split that the list allows.
fn split(random: &mut Random, n: usize, list: &Shared, capacity: usize) -> Option<Step> {
    let count = list.cubes.len();
    let allowed = n > 0 && count > 0 && count < capacity;
    allowed.then(|| Plain(Split { v: random.below(n), i: random.below(count) }))
}

/// A turn of two cubes that differ, at a variable where they do.
fn turn(random: &mut Random, list: &Shared, i: usize, j: usize) -> model::script::Step {
    Turn { v: random.pick(&differing(&list.cubes[i], &list.cubes[j])), i, j }
}

/// Two places whose cubes differ in so many variables, with equal outputs or with different ones, where that is said.
fn partner(random: &mut Random, list: &Shared, variables: usize, equal: Option<bool>) -> Option<(usize, usize)> {
    let count = list.cubes.len();
    if count < 2 {
        return None;
    }
    let (i, start) = (random.below(count), random.below(count));
    let fits = |j: usize| {
        j != i
            && equal.is_none_or(|equal| equal == (list.outputs[i] == list.outputs[j]))
            && differing(&list.cubes[i], &list.cubes[j]).len() == variables
    };
    (0..count.min(LOOKS)).map(|k| (start + k) % count).find(|&j| fits(j)).map(|j| (i, j))
}

/// A step that the list refuses with this number, or nothing if none was found.
fn refused(random: &mut Random, n: usize, list: &Shared, capacity: usize, number: u64) -> Option<Step> {
    (0..20).map(|_| any(random, n, list, number)).find(|&step| {
        let well_formed = shared::decoded_step(n, &shared::encoded_step(step)).is_some();
        well_formed && broken(list, step, capacity).first() == Some(&number)
    })
}

/// A step that may be refused with this number.
fn any(random: &mut Random, n: usize, list: &Shared, number: u64) -> Step {
    let (i, j) = places(random, n, list, number);
    let v = random.below(n.max(1));
    match (number, random.below(5)) {
        (13, _) => Plain(Split { v, i }),
        (16, _) | (10 | 11, 0) => Plain(Drop { i, j }),
        (17, _) | (10 | 11, 1) => Plain(Join { i, j }),
        (10, 2) => Plain(Split { v, i }),
        (23, _) | (10 | 11, 3) => Merge { i, j },
        (22, _) if !list.cubes.is_empty() => match differing(&list.cubes[i], &list.cubes[j]).len() {
            0 => Plain(Drop { i, j }),
            1 => Plain(Join { i, j }),
            2 => Plain(turn(random, list, i, j)),
            _ => Plain(Turn { v, i, j }),
        },
        _ => Plain(Turn { v, i, j }),
    }
}

/// Two places for such a step.
fn places(random: &mut Random, n: usize, list: &Shared, number: u64) -> (usize, usize) {
    let count = list.cubes.len();
    let beyond = random.pick(&[count, count + 1, count + 256, 65535]).min(65535);
    let (i, j) = (random.below(count.max(1)), random.below(count.max(1)));
    let apart = random.below(n + 1);
    let found = match number {
        10 => return random.pick(&[(beyond, beyond), (beyond, j), (i, beyond)]),
        11 => return (i, i),
        16..=18 => {
            let apart = random.pick(&[0, 1, 2, 3, n, n, apart, apart]);
            (0..4).find_map(|_| partner(random, list, apart, None))
        }
        19 => (0..4).find_map(|_| partner(random, list, 2, None)),
        22 => {
            let apart = random.pick(&[0, 1, 2]);
            (0..4).find_map(|_| partner(random, list, apart, Some(false)))
        }
        23 => {
            let (apart, equal) = random.pick(&[(0, true), (0, true), (1, false), (2, true), (apart, false)]);
            (0..4).find_map(|_| partner(random, list, apart, Some(equal)))
        }
        _ => None,
    };
    found.unwrap_or((i, j))
}
