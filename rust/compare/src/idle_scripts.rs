//! Scripts full of nothing, by chance: pairs, pairs within them, and what is nearly a pair.

use crate::random::Random;
use model::compactor::counted;
use model::script::{STEPS, Step};

/// The count of the list that a script is for: mostly small, so that drops would take it below zero.
pub fn count(random: &mut Random) -> usize {
    match random.below(10) {
        0 => 4096 - random.below(3),
        1 => random.between(5, 2000),
        2 => random.between(250, 260),
        _ => random.below(5),
    }
}

/// How many steps a script has, at least so many.
pub fn length(random: &mut Random, least: usize) -> usize {
    match random.below(100) {
        0 => STEPS - if random.one_in(2) { 0 } else { random.below(20) },
        1..=10 => random.between(17, 64),
        11..=14 => least,
        _ => random.between(1, 16),
    }
}

/// A script of so many steps: pairs and others are put within the one before, at the end, or anywhere.
pub fn script(random: &mut Random, n: usize, given: usize, length: usize) -> Vec<Step> {
    let way = random.below(3);
    let others = random.pick(&[0, 2, 4]);
    let mut script: Vec<Step> = Vec::new();
    let mut place = 0;
    while script.len() < length {
        let before = script[..place].iter().fold(given, |count, &step| counted(count, step));
        let steps = match random.below(8) {
            _ if length - script.len() < 2 => vec![single(random, n, before)],
            other if other >= others => pair(random, n, before),
            0 | 2 => near_pair(random, n, given, before),
            _ => vec![single(random, n, before)],
        };
        script.splice(place..place, steps);
        place = match way {
            0 => place + 1,
            1 => script.len(),
            _ => random.below(script.len() + 1),
        };
    }
    script
}

/// Two steps that are removed where the count is this one.
fn pair(random: &mut Random, n: usize, before: usize) -> Vec<Step> {
    match random.below(3) {
        _ if n == 0 => vec![single(random, n, before)],
        0 => vec![l(random, n); 2],
        1 => vec![turn(random, n, before); 2],
        _ => {
            let i = place(random, before);
            vec![Step::Split { v: random.below(n), i }, Step::Join { i, j: before }]
        }
    }
}

/// Two steps that are not removed there, mostly; that would be for another count, or with another field.
fn near_pair(random: &mut Random, n: usize, given: usize, before: usize) -> Vec<Step> {
    let (i, j) = (place(random, before), place(random, before));
    match random.below(9) {
        0 => vec![Step::Join { i, j }; 2],
        1 => vec![Step::Drop { i, j }; 2],
        _ if n == 0 => vec![single(random, n, before)],
        2 => vec![Step::Split { v: random.below(n), i }; 2],
        3 => vec![l(random, n), l(random, n)],
        4 => {
            let literal = random.below(2) as u8;
            let v = random.below(n);
            vec![Step::L { v, literal }, Step::L { v, literal: 1 - literal }]
        }
        5 => {
            let (v, w, k) = (random.below(n), random.below(n), place(random, before));
            let other = random.pick(&[(w, i, j), (v, k, j), (v, i, k), (v, j, i)]);
            vec![Step::Turn { v, i, j }, Step::Turn { v: other.0, i: other.1, j: other.2 }]
        }
        6 => {
            let join = random.pick(&[Step::Join { i: before, j: i }, Step::Join { i: j, j: before }]);
            vec![Step::Split { v: random.below(n), i }, join]
        }
        _ => {
            let others = [given, before + 1, before.saturating_sub(1), before + 2, before % 256, before + 256, i, j];
            vec![Step::Split { v: random.below(n), i }, Step::Join { i, j: random.pick(&others) }]
        }
    }
}

fn single(random: &mut Random, n: usize, before: usize) -> Step {
    let (i, j) = (place(random, before), place(random, before));
    match random.below(6) {
        0 | 1 => Step::Drop { i, j },
        2 => Step::Join { i, j },
        _ if n == 0 => Step::Join { i: j, j: i },
        3 => Step::Split { v: random.below(n), i },
        4 => turn(random, n, before),
        _ => l(random, n),
    }
}

fn turn(random: &mut Random, n: usize, before: usize) -> Step {
    Step::Turn { v: random.below(n), i: place(random, before), j: place(random, before) }
}

fn l(random: &mut Random, n: usize) -> Step {
    Step::L { v: random.below(n), literal: random.below(2) as u8 }
}

/// A place of the list, or one past its end.
fn place(random: &mut Random, count: usize) -> usize {
    match random.below(8) {
        0 => random.pick(&[count, count + 1, 255, 256, 65535]),
        1 | 2 => random.below(3),
        _ => random.below(count.max(1)),
    }
}
