//! Scripts that are compacted, for lists of 1,024 records over 32 variables: steps of all kinds, in no regular order.

use crate::inputs::{Random, step};

pub const COUNT: usize = 1024;

const VARIABLES: u64 = 32;
const PLACES: u64 = 512;

type Step = [u8; 8];

/// So many steps of which no two in a row are a pair. Now and then a split is followed by a join that would be its own at
/// another count.
pub fn no_pair(steps: usize) -> Vec<u8> {
    let mut random = Random(steps as u64);
    let mut script: Vec<Step> = Vec::new();
    while script.len() < steps {
        let next = match (random.next() % 8, script.last()) {
            (0, _) => drop(&mut random),
            (1, Some(last)) if last[0] == 3 => joined(last, PLACES as usize),
            (1, _) => join(&mut random),
            (2 | 3, _) => split(&mut random),
            (4 | 5, _) => turn(&mut random),
            _ => exchange(&mut random),
        };
        if script.last() != Some(&next) {
            script.push(next);
        }
    }
    script.concat()
}

/// So many pairs, each within the one before: L steps, turns and splits, and then what undoes them.
pub fn nest(pairs: usize) -> Vec<u8> {
    let mut random = Random(pairs as u64);
    let mut count = COUNT;
    let (mut first, mut second): (Vec<Step>, Vec<Step>) = (vec![], vec![]);
    while first.len() < pairs {
        let (does, undoes) = pair(&mut random, count);
        if first.last() != Some(&does) {
            count += usize::from(does[0] == 3);
            first.push(does);
            second.push(undoes);
        }
    }
    first.into_iter().chain(second.into_iter().rev()).collect::<Vec<_>>().concat()
}

/// So many pairs, one after the other.
pub fn in_a_row(pairs: usize) -> Vec<u8> {
    let mut random = Random(pairs as u64);
    (0..pairs).flat_map(|_| <[Step; 2]>::from(pair(&mut random, COUNT)).concat()).collect()
}

/// So many splits, each followed by its join.
pub fn splits_and_joins(pairs: usize) -> Vec<u8> {
    let mut random = Random(pairs as u64);
    let mut pair = || {
        let split = split(&mut random);
        [split, joined(&split, COUNT)].concat()
    };
    (0..pairs).flat_map(|_| pair()).collect()
}

/// A step and the one that undoes it, where the count is this one.
fn pair(random: &mut Random, count: usize) -> (Step, Step) {
    match random.next() % 3 {
        0 => {
            let split = split(random);
            (split, joined(&split, count))
        }
        kind => {
            let equal = if kind == 1 { turn(random) } else { exchange(random) };
            (equal, equal)
        }
    }
}

fn drop(random: &mut Random) -> Step {
    step(1, 0, place(random), place(random), 0)
}

fn join(random: &mut Random) -> Step {
    step(2, 0, place(random), place(random), 0)
}

fn split(random: &mut Random) -> Step {
    step(3, variable(random), place(random), 0, 0)
}

/// The join of a split's place with this one.
fn joined(split: &Step, j: usize) -> Step {
    step(2, 0, usize::from(u16::from_le_bytes([split[2], split[3]])), j, 0)
}

fn turn(random: &mut Random) -> Step {
    step(4, variable(random), place(random), place(random), 0)
}

fn exchange(random: &mut Random) -> Step {
    step(5, variable(random), 0, 0, (random.next() % 2) as usize)
}

fn variable(random: &mut Random) -> usize {
    (random.next() % VARIABLES) as usize
}

fn place(random: &mut Random) -> usize {
    (random.next() % PLACES) as usize
}
