//! Document 02, Three: short lists and long ones, with the number of steps and whether the script has finished. What is
//! written is compared with the model's.

use crate::differ::{Call, Case, empty};
use crate::examples::{Example, records};
use model::cube::RECORD;
use model::script::{STEP, STEPS};

pub fn all() -> Vec<Example> {
    [short(), long(), rooms()].concat()
}

fn short() -> Vec<Example> {
    let written = |list: &[&str]| {
        let n = list.first().map_or(0, |text| text.len());
        in_rooms(n as u64, records(list), RECORD * list.len() + 3, STEP * list.len() + 3)
    };
    vec![
        (written(&["0", "1"]), vec![0, 0, 1, 1]),
        (written(&["0", "0", "0"]), vec![0, 0, 1, 1]),
        (written(&["", ""]), vec![0, 0, 1, 1]),
        (written(&["1-", "-1", "11"]), vec![0, 0, 1, 1]),
        (written(&[]), vec![0, 0, 0, 1]),
        (written(&["01"]), vec![0, 0, 0, 1]),
        (written(&["00", "11"]), vec![0, 0, 0, 1]),
        // 1 and 2 are a pair too, with a lower j: two steps would do.
        (written(&["00", "11", "11", "0-"]), vec![0, 0, 3, 1]),
        // The last record is moved to place 1, in front of its partner.
        (written(&["0000", "0001", "1111", "0-1-", "1110"]), vec![0, 0, 2, 1]),
        // A new cube that is near one in front.
        (written(&["0-", "11", "10"]), vec![0, 0, 2, 1]),
    ]
}

/// Lists of up to 4,096 records. "It has finished exactly when the end list has no such pair, even after exactly 1,024
/// steps."
fn long() -> Vec<Example> {
    let twice = |count: u32| (0..count).flat_map(|m| [even(m); 2]).collect();
    let halves = |count: u32| (0..2 * count).map(|m| even(m % count)).collect();
    vec![
        (whole(13, (0..4096).map(even).collect()), vec![0, 0, 0, 1]),
        (whole(13, twice(2048)), vec![0, 0, 1024, 0]),
        (whole(13, halves(2048)), vec![0, 0, 1024, 0]),
        (whole(13, twice(1024)), vec![0, 0, 1024, 1]),
        (whole(13, halves(1024)), vec![0, 0, 1024, 1]),
        (whole(13, twice(1023)), vec![0, 0, 1023, 1]),
        (whole(32, joins_at_the_back(2048, 1024)), vec![0, 0, 1024, 1]),
        (whole(32, joins_at_the_back(2046, 1025)), vec![0, 0, 1024, 0]),
        (whole(32, chains()), vec![0, 0, 1024, 1]),
        (whole(12, (0..4096).map(|m| (0xfff, m)).collect()), vec![0, 0, 1024, 0]),
        (whole(32, vec![(0, 0); 4096]), vec![0, 0, 1024, 0]),
    ]
}

/// The rooms that are just enough, and one byte less.
fn rooms() -> Vec<Example> {
    let apart = |count: u32| encoded((0..count).map(even).collect());
    let at = |count: u32, work, script| in_rooms(13, apart(count), work, script);
    let few = |n, work, script| in_rooms(n, records(&["00", "11"]), work, script);
    vec![
        (at(1023, 8 * 1023, 8 * 1023), vec![0, 0, 0, 1]),
        (at(1023, 8 * 1023, 8 * 1023 - 1), vec![5, 0]),
        (at(1024, 8 * 1024, 8 * 1024), vec![0, 0, 0, 1]),
        (at(1024, 8 * 1024, 8 * 1024 - 1), vec![5, 0]),
        (at(1025, 8 * 1025, 8 * 1024), vec![0, 0, 0, 1]),
        (at(1025, 8 * 1025, 8 * 1024 - 1), vec![5, 0]),
        (at(4096, 8 * 5000, 8 * 1024), vec![0, 0, 0, 1]),
        (at(4096, 8 * 4096 - 1, 8 * 1024), vec![5, 0]),
        (in_rooms(32, vec![0; 8 * 4097], 8 * 4097, 8 * 1024), vec![3, 0]),
        (few(2, 16, 16), vec![0, 0, 0, 1]),
        (few(2, 16, 15), vec![5, 0]),
        (few(2, 15, 16), vec![5, 0]),
        (few(1, 15, 15), vec![4, 0]),
        (in_rooms(2, records(&["00", "1-0"]), 15, 15), vec![4, 1]),
        (in_rooms(32, vec![], 0, 0), vec![0, 0, 0, 1]),
    ]
}

/// Seen and value.
type Masks = (u32, u32);

/// Cubes of which no two are near: minterms of 13 variables with an even number of ones.
fn even(m: u32) -> Masks {
    (0x1fff, m << 1 | m.count_ones() & 1)
}

/// Cubes without a pair, and then pairs that differ in variable 31.
fn joins_at_the_back(front: u32, pairs: u32) -> Vec<Masks> {
    let pair = |m| {
        let (seen, value) = even(m);
        [0, 1 << 31].map(|literal| (seen | 1 << 31, value | literal))
    };
    (0..front).map(even).chain((front..front + pairs).flat_map(pair)).collect()
}

/// 256 chains of four joins. Each begins with a pair at the back, and each cube that is made is near one that stands far in
/// front of it. At the very end are cubes without a pair, for the freed places.
fn chains() -> Vec<Masks> {
    const CHAINS: u32 = 256;
    let mut fillers = (CHAINS..4096).map(even).map(|(seen, value)| (seen | 0xf << 28, value));
    let mut list = Vec::new();
    for made in [3, 2, 1] {
        list.extend((0..CHAINS).map(|m| link(m, made)));
        list.extend(fillers.by_ref().take(597));
    }
    let pair = |m| {
        let (seen, value) = link(m, 0);
        [0, 1 << 28].map(|literal| (seen, value | literal))
    };
    list.extend((0..CHAINS).flat_map(pair));
    list.extend(fillers.take(4096 - list.len()));
    list
}

/// The cube of a chain for the join after so many: it has nothing at the variables of those, 0 at its own, and 1 at the ones
/// after it.
fn link(m: u32, made: u32) -> Masks {
    let (seen, value) = even(m);
    (seen | 0xf000_0000 << made, value | 0xe000_0000 << made)
}

fn encoded(list: Vec<Masks>) -> Vec<u8> {
    list.iter().flat_map(|(seen, value)| [seen.to_le_bytes(), value.to_le_bytes()].concat()).collect()
}

/// A list in buffers that are just long enough, and a byte more.
fn whole(n: u64, list: Vec<Masks>) -> Case {
    let (work, script) = (RECORD * list.len() + 1, STEP * list.len().min(STEPS) + 1);
    in_rooms(n, encoded(list), work, script)
}

fn in_rooms(n: u64, input: Vec<u8>, work: usize, script: usize) -> Case {
    Case { input, work: vec![7; work], script: vec![7; script], ..empty(Call::WriteScript, n) }
}
