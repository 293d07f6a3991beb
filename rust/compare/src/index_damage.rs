//! Indexes that are not a list's: its own, damaged in the entries, in the starts or in both.

use crate::random::Random;
use model::cube::Cube;
use model::index::{Index, Starts, index, literals};

pub fn damaged(random: &mut Random, cubes: &[Cube], right: Index) -> Index {
    let mut given = right;
    match random.below(8) {
        0..=3 if !cubes.is_empty() => damage_places(random, cubes, &mut given.places),
        4 if !cubes.is_empty() => given = of_another_list(random, cubes),
        5 if !cubes.is_empty() => {
            damage_places(random, cubes, &mut given.places);
            damage_starts(random, cubes.len() as u64, &mut given.starts);
        }
        _ => damage_starts(random, cubes.len() as u64, &mut given.starts),
    }
    given
}

/// The index of a list as long, in which some cubes have another number of literals, or stand elsewhere.
fn of_another_list(random: &mut Random, cubes: &[Cube]) -> Index {
    let mut others = cubes.to_vec();
    let place = random.below(others.len());
    if random.one_in(2) {
        others.rotate_left(place);
    } else {
        let cube = &mut others[place];
        cube.fill_with(|| random.below(3) as u8);
    }
    index(&others)
}

/// The first entry, the last or another one.
fn entry(random: &mut Random, count: usize) -> usize {
    match random.below(4) {
        0 => 0,
        1 => count - 1,
        _ => random.below(count),
    }
}

fn damage_places(random: &mut Random, cubes: &[Cube], places: &mut [usize]) {
    let count = places.len();
    let (a, b) = (entry(random, count), entry(random, count));
    match random.below(9) {
        0 => places.swap(a, b),
        1 => places.swap(a, (a + 1) % count),
        2 => places[a] = places[b],
        3 => places[a] = random.pick(&[count, count + 1, 4096, 65535, places[a] + 256, places[a] + 4096]),
        4 => places[a] = of_another_group(random, cubes, places[a]),
        5 => places[a] ^= 1 << random.below(16),
        6 => places[a] = random.below(65536),
        7 => places.reverse(),
        _ => places.sort(),
    }
}

/// A place whose cube has another number of literals, if one is found.
fn of_another_group(random: &mut Random, cubes: &[Cube], place: usize) -> usize {
    let others = (0..8).map(|_| random.below(cubes.len()));
    let mut others = others.filter(|&other| literals(&cubes[other]) != literals(&cubes[place]));
    others.next().unwrap_or(place)
}

fn damage_starts(random: &mut Random, count: u64, starts: &mut Starts) {
    let m = if random.one_in(4) { 0 } else { random.below(33) };
    match random.below(9) {
        0 => starts[m] = starts[m].wrapping_add(1),
        1 => starts[m] = starts[m].wrapping_sub(1),
        2 => starts[32] = random.pick(&[0, count + 1, count.wrapping_sub(1), 2 * count, u64::MAX]),
        3 => *starts = starts.map(|start| 2 * start),
        4 => *starts = starts.map(|start| count - start),
        5 => starts.rotate_left(1),
        6 => starts[m] |= 1 << random.between(12, 63),
        7 => starts.fill(random.pick(&[0, count])),
        _ => starts[m] = random.next(),
    }
}
