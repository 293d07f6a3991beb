//! Document 02, Eight: indexes built, asked for groups and kept along a run. What is written is compared with the model's.

use crate::differ::{Call, Case, empty};
use crate::examples::{Example, records};
use model::cube::{PLACE, RECORD, encoded_places};
use model::index::Starts;
use model::script::Step::{self, Drop, Join, L, Split, Turn};
use model::script::encoded_script;

pub fn all() -> Vec<Example> {
    [built(), groups(), wrong_entries(), wrong_starts(), runs(), rooms()].concat()
}

const CUBES: [&str; 5] = ["11", "-1", "0-", "--", "00"];
const PLACES: [usize; 5] = [3, 1, 2, 0, 4];

/// The starts of the groups of no literal, of one and so on, and then the count.
fn starts(first: &[u64], count: u64) -> Starts {
    std::array::from_fn(|m| first.get(m).copied().unwrap_or(count))
}

fn right() -> Starts {
    starts(&[0, 1, 3], 5)
}

fn build(n: u64, input: Vec<u8>, room: usize) -> Case {
    Case { input, out: vec![7; room], starts: [9; 33], ..empty(Call::Index, n) }
}

fn built() -> Vec<Example> {
    let zeros = |count: usize| vec![0; RECORD * count];
    vec![
        (build(2, records(&CUBES), 10), vec![0, 0, 5]),
        (build(2, records(&CUBES), 13), vec![0, 0, 5]),
        (build(2, records(&CUBES), 9), vec![5, 0]),
        (build(1, records(&CUBES), 9), vec![4, 0]),
        (build(2, records(&["11", "-1-"]), 4), vec![0, 0, 2]),
        (build(0, records(&["", ""]), 4), vec![0, 0, 2]),
        (build(32, vec![], 0), vec![0, 0, 0]),
        (build(32, records(&["1".repeat(32).as_str(), "-".repeat(32).as_str()]), 4), vec![0, 0, 2]),
        (build(32, zeros(4096), 2 * 4096), vec![0, 0, 4096]),
        (build(32, zeros(4096), 2 * 4096 - 1), vec![5, 0]),
        (build(32, zeros(4097), 2 * 4097), vec![3, 0]),
    ]
}

/// The examples' cubes, with an index and three bytes behind it.
fn asked(places: &[usize], starts: Starts, number: u64) -> Case {
    let out = [encoded_places(places), vec![7; 3]].concat();
    Case { input: records(&CUBES), number, out, starts, ..empty(Call::Group, 2) }
}

fn groups() -> Vec<Example> {
    let own = |number| asked(&PLACES, right(), number);
    let ends = ["0".repeat(32), "-".repeat(32), "1".repeat(32)];
    let input = records(&ends.each_ref().map(|text| text.as_str()));
    let ends = |number| {
        let out = encoded_places(&[1, 0, 2]);
        Case { input: input.clone(), number, out, starts: starts(&[0], 1), ..empty(Call::Group, 32) }
    };
    vec![
        (own(0), vec![0, 0, 1, 0]),
        (own(1), vec![0, 0, 2, 1]),
        (own(2), vec![0, 0, 2, 3]),
        (own(3), vec![0, 0, 0, 5]),
        (own(32), vec![0, 0, 0, 5]),
        (own(33), vec![21, 0]),
        (own(u64::MAX), vec![21, 0]),
        (ends(0), vec![0, 0, 1, 0]),
        (ends(31), vec![0, 0, 0, 1]),
        (ends(32), vec![0, 0, 2, 1]),
        (ends(33), vec![21, 0]),
        (empty(Call::Group, 0), vec![0, 0, 0, 0]),
    ]
}

/// The first wrong entry, whatever the starts and the number are.
fn wrong_entries() -> Vec<Example> {
    let wrong = [
        // Two of one group exchanged, and two of different groups.
        ([3, 2, 1, 0, 4], 1),
        ([3, 1, 2, 4, 0], 3),
        ([1, 3, 2, 0, 4], 0),
        // Two equal entries, and one out of range.
        ([3, 1, 1, 0, 4], 2),
        ([3, 1, 2, 0, 0], 4),
        ([3, 1, 2, 0, 5], 4),
        ([3, 1, 2, 0, 4 + 256], 4),
        ([65535, 1, 2, 0, 4], 0),
        // By place alone, and by number descending.
        ([0, 1, 2, 3, 4], 0),
        ([0, 4, 1, 2, 3], 0),
    ];
    let mut examples = Vec::new();
    for (places, place) in wrong {
        for (starts, number) in [(right(), 1), (right(), 33), ([0; 33], 1), ([0; 33], 33)] {
            examples.push((asked(&places, starts, number), vec![25, place, 0]));
        }
    }
    examples.push((Case { out: vec![7; 9], ..asked(&PLACES, [9; 33], 33) }, vec![5, 0]));
    examples.push((Case { n: 1, out: vec![7; 9], ..asked(&PLACES, [9; 33], 33) }, vec![4, 0]));
    examples
}

/// The first wrong start, where the entries are right.
fn wrong_starts() -> Vec<Example> {
    let with = |m: usize, start| {
        let mut starts = right();
        starts[m] = start;
        starts
    };
    let wrong = [
        (right().map(|start| 2 * start), 1),
        (right().map(|start| 5 - start), 0),
        (with(0, 1), 0),
        (with(2, 4), 2),
        (with(32, 4), 32),
        (with(32, 0), 32),
        (with(32, 5 + (1 << 32)), 32),
        (with(31, u64::MAX), 31),
    ];
    wrong.into_iter().flat_map(|(starts, m)| [1, 33].map(|k| (asked(&PLACES, starts, k), vec![25, m, 0]))).collect()
}

/// A run in a work buffer for so many records, with an index buffer of so many bytes.
fn run(list: &[u8], script: Vec<u8>, work: usize, room: usize) -> Case {
    let (work, out) = (vec![7; work], vec![7; room]);
    Case { input: list.to_vec(), script, work, out, starts: [9; 33], ..empty(Call::RunIndexed, 2) }
}

fn runs() -> Vec<Example> {
    let on =
        |cubes: &[&str], script: &[Step]| run(&records(cubes), encoded_script(script), 6 * RECORD + 3, 6 * PLACE + 1);
    let turn = Turn { v: 0, i: 0, j: 1 };
    vec![
        (on(&CUBES, &[]), vec![0, 0, 5, 5]),
        (on(&CUBES, &[Join { i: 1, j: 0 }]), vec![0, 0, 4, 5]),
        (on(&CUBES, &[Split { v: 0, i: 1 }]), vec![0, 0, 6, 6]),
        (on(&CUBES, &[Split { v: 0, i: 1 }, Join { i: 1, j: 5 }]), vec![0, 0, 5, 6]),
        (on(&["11", "11"], &[Drop { i: 0, j: 1 }]), vec![0, 0, 0, 2]),
        (on(&["1-", "01"], &[turn]), vec![0, 0, 2, 2]),
        // The numbers of literals go back to what they were.
        (on(&CUBES, &[L { v: 0, literal: 1 }]), vec![0, 0, 5, 5]),
        (on(&CUBES, &[L { v: 0, literal: 1 }, L { v: 0, literal: 0 }, L { v: 1, literal: 1 }]), vec![0, 0, 5, 5]),
        // Refused before the first step, and at one.
        (on(&CUBES, &[Split { v: 2, i: 0 }]), vec![9, 0]),
        (on(&CUBES, &[L { v: 0, literal: 1 }, Drop { i: 0, j: 1 }]), vec![16, 1, 1]),
        (on(&CUBES, &[Split { v: 0, i: 0 }, Split { v: 0, i: 0 }]), vec![13, 1]),
        (on(&CUBES, &[Join { i: 0, j: 5 }]), vec![10, 0]),
    ]
}

/// The room of the index goes by the work buffer's capacity.
fn rooms() -> Vec<Example> {
    let cubes = &records(&CUBES);
    let zeros = vec![0; RECORD * 4096];
    vec![
        (run(cubes, vec![], 40, 10), vec![0, 0, 5, 5]),
        (run(cubes, vec![], 40, 9), vec![5, 0]),
        (run(cubes, vec![], 47, 10), vec![0, 0, 5, 5]),
        (run(cubes, vec![], 48, 10), vec![5, 0]),
        (run(cubes, vec![], 48, 12), vec![0, 0, 5, 5]),
        (run(cubes, vec![0], 40, 9), vec![5, 0]),
        (run(cubes, vec![0], 40, 10), vec![7, 0]),
        (run(cubes, vec![], 39, 10), vec![5, 0]),
        (run(&[], vec![], 0, 0), vec![0, 0, 0, 0]),
        (run(&zeros, vec![], 8 * 4096, 2 * 4096), vec![0, 0, 4096, 4096]),
        (run(&zeros, vec![], 8 * 5000, 2 * 4096), vec![0, 0, 4096, 4096]),
        (run(&zeros, vec![], 8 * 5000, 2 * 4096 - 1), vec![5, 0]),
        (run(&zeros, encoded_script(&[L { v: 1, literal: 0 }; 1024]), 8 * 4096, 2 * 4096), vec![0, 0, 4096, 4096]),
    ]
}
