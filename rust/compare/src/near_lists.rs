//! Lists for easy scripts, by chance: cubes that are equal or differ in one variable are common in them.

use crate::random::Random;
use model::cube::Cube;
use model::script::{STEPS, third};

/// Cubes over so many variables, at least so many of them: mostly few.
pub fn cubes(random: &mut Random, width: usize, least: usize) -> Vec<Cube> {
    let count = match random.below(100) {
        0 if width > 0 => return long(random, width),
        1 => random.between(65, 256),
        2..=9 => random.between(25, 64),
        _ => random.between(least, 24),
    };
    match random.below(4) {
        0 => minterms(random, width, count),
        1 => (0..count).map(|_| any(random, width)).collect(),
        _ => copies(random, width, count),
    }
}

fn any(random: &mut Random, width: usize) -> Cube {
    (0..width).map(|_| random.below(3) as u8).collect()
}

/// Minterms of numbers one after the other, in order or not.
fn minterms(random: &mut Random, width: usize, count: usize) -> Vec<Cube> {
    let first = random.next();
    let minterm = |number: u64| (0..width).map(|k| (number >> k & 1) as u8).collect();
    let mut cubes: Vec<Cube> = (0..count as u64).map(|k| minterm(first.wrapping_add(k))).collect();
    if random.one_in(2) {
        for place in 1..count {
            cubes.swap(place, random.below(place + 1));
        }
    }
    cubes
}

/// Copies of cubes before, with none, one, two or three codes drawn anew; often that of the last variable.
fn copies(random: &mut Random, width: usize, count: usize) -> Vec<Cube> {
    let mut cubes: Vec<Cube> = Vec::new();
    for _ in 0..count {
        let mut cube = match cubes.len() {
            0 => any(random, width),
            _ => cubes[random.below(cubes.len())].clone(),
        };
        let changes = if width == 0 { 0 } else { random.below(4) };
        for _ in 0..changes {
            let v = if random.one_in(4) { width - 1 } else { random.below(width) };
            cube[v] = random.below(3) as u8;
        }
        cubes.push(cube);
    }
    cubes
}

/// Cubes over at least one variable that are joined to one, in as many steps as a script can have, or one more or fewer.
fn long(random: &mut Random, width: usize) -> Vec<Cube> {
    let steps = random.between(STEPS - 1, STEPS + 1);
    let v = random.below(width);
    let mut cubes = vec![any(random, width); steps + 1];
    // Each is joined to the first: that at place 1, and then the last of the list, which is moved there.
    let mut code = cubes[0][v];
    for place in [1].into_iter().chain((2..=steps).rev()) {
        let other = (code + random.pick(&[1, 2])) % 3;
        cubes[place][v] = other;
        code = third(code, other);
    }
    cubes
}
