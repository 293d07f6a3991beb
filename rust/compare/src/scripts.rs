//! Scripts that mostly succeed: each step is chosen by looking at the model's present list.

use crate::random::Random;
use model::cube::Cube;
use model::script::{self, Step, differing};

/// How many partners are looked at for one step.
const LOOKS: usize = 64;

/// A script of `length` steps for a list; where `mistake` is a refusal at a step, one of the steps is refused with it, if
/// the list allows that.
pub fn script(
    random: &mut Random,
    n: usize,
    given: &[Cube],
    capacity: usize,
    length: usize,
    mistake: Option<u64>,
) -> Vec<Step> {
    let mut list = given.to_vec();
    let mut steps = Vec::new();
    let mistaken = mistake.map(|number| (random.below(length.max(1)), number));
    while steps.len() < length {
        if let Some((at, number)) = mistaken
            && steps.len() >= at
            && let Some(step) = refused(random, n, &list, capacity, number)
        {
            steps.push(step);
            // What follows is never reached, and may be anything.
            steps.extend((0..random.below(3)).filter_map(|_| accepted(random, n, given, capacity)));
            break;
        }
        let to_fill = matches!(mistaken, Some((_, 13)));
        let step = if to_fill { split(random, n, &list, capacity) } else { None };
        let Some(step) = step.or_else(|| accepted(random, n, &list, capacity)) else { break };
        script::step(&mut list, step, capacity, 0).expect("the step was chosen for this list");
        steps.push(step);
    }
    steps
}

/// A step that the list allows, or nothing if none was found.
fn accepted(random: &mut Random, n: usize, list: &[Cube], capacity: usize) -> Option<Step> {
    for _ in 0..6 {
        let step = match random.below(6) {
            0 => partner(random, list, 0).map(|(i, j)| Step::Drop { i, j }),
            1 => partner(random, list, 1).map(|(i, j)| Step::Join { i, j }),
            2 => split(random, n, list, capacity),
            3 | 4 => turn(random, list),
            _ => (n > 0).then(|| Step::L { v: random.below(n), literal: random.below(2) as u8 }),
        };
        if step.is_some() {
            return step;
        }
    }
    None
}

/// A split that the list allows.
pub fn split(random: &mut Random, n: usize, list: &[Cube], capacity: usize) -> Option<Step> {
    let allowed = n > 0 && !list.is_empty() && list.len() < capacity;
    allowed.then(|| Step::Split { v: random.below(n), i: random.below(list.len()) })
}

/// A turn that the list allows.
pub fn turn(random: &mut Random, list: &[Cube]) -> Option<Step> {
    partner(random, list, 2).map(|(i, j)| {
        let v = random.pick(&differing(&list[i], &list[j]));
        Step::Turn { v, i, j }
    })
}

/// Two places whose cubes differ in so many variables.
fn partner(random: &mut Random, list: &[Cube], variables: usize) -> Option<(usize, usize)> {
    if list.len() < 2 {
        return None;
    }
    let (i, start) = (random.below(list.len()), random.below(list.len()));
    (0..list.len().min(LOOKS))
        .map(|k| (start + k) % list.len())
        .find(|&j| j != i && differing(&list[i], &list[j]).len() == variables)
        .map(|j| (i, j))
}

/// The same, with up to four places drawn for the first of them.
fn partner_of_four(random: &mut Random, list: &[Cube], variables: usize) -> Option<(usize, usize)> {
    (0..4).find_map(|_| partner(random, list, variables))
}

/// A well-formed step that the list refuses with this number, or nothing if none was found.
fn refused(random: &mut Random, n: usize, list: &[Cube], capacity: usize, number: u64) -> Option<Step> {
    (0..20).map(|_| any(random, n, list, number)).find(|&step| {
        let well_formed = script::decoded(n, &script::encoded(step)).is_some();
        well_formed
            && script::step(&mut list.to_vec(), step, capacity, 0).is_err_and(|refusal| refusal.number == number)
    })
}

/// A step that may be refused with this number.
fn any(random: &mut Random, n: usize, list: &[Cube], number: u64) -> Step {
    let count = list.len();
    let beyond = random.pick(&[count, count + 1, count + 256, 65535]).min(65535);
    let inside = |random: &mut Random| random.below(count.max(1));
    let (mut i, mut j) = (inside(random), inside(random));
    match number {
        10 if random.one_in(3) => (i, j) = (beyond, beyond),
        10 if random.one_in(2) => i = beyond,
        10 => j = beyond,
        11 => j = i,
        16..=18 => {
            let apart = random.below(n + 1);
            let apart = random.pick(&[0, 1, 2, 3, n, n, apart, apart]);
            (i, j) = partner_of_four(random, list, apart).unwrap_or((i, j));
        }
        19 => (i, j) = partner_of_four(random, list, 2).unwrap_or((i, j)),
        _ => {}
    }
    let v = random.below(n.max(1));
    match (number, random.below(4)) {
        (13, _) => Step::Split { v, i },
        (16, _) | (10 | 11, 0) => Step::Drop { i, j },
        (17, _) | (10 | 11, 1) => Step::Join { i, j },
        (10, 2) => Step::Split { v, i: beyond },
        _ => Step::Turn { v, i, j },
    }
}
