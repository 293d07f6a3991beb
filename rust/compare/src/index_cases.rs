//! Calls of index, of group and of run indexed, by chance.

use crate::cases::{RECORDS, VARIABLES, count, cubes, lent, list_case, many_variables, script_case, variables};
use crate::damage::{Faults, list_bytes};
use crate::differ::{Call, Case, empty};
use crate::index_damage::damaged;
use crate::random::Random;
use crate::starts::garbage;
use model::cube::{Cube, PLACE, RECORD, encoded_list, encoded_places};
use model::index::{index, literals};

pub fn index_case(random: &mut Random, faults: &Faults) -> Case {
    Case { starts: garbage(random), ..list_case(random, faults, Call::Index) }
}

/// A list and an index that is its own, or is damaged for 25; bytes behind the entries, or too few of them.
pub fn group_case(random: &mut Random, faults: &Faults) -> Case {
    let width = many_variables(random, VARIABLES);
    let n = variables(random, faults, width, VARIABLES);
    let count = count(random, faults);
    let cubes = cubes(random, width, count);
    let right = index(&cubes);
    let given = if faults.has(25) { damaged(random, &cubes, right) } else { right };
    let entries = encoded_places(&given.places);
    let mut out = lent(random, PLACE * count, faults.has(5));
    let there = out.len().min(entries.len());
    out[..there].copy_from_slice(&entries[..there]);
    let input = list_bytes(random, faults, width, RECORD, encoded_list(&cubes));
    let number = number(random, faults, &cubes);
    Case { input, number, out, starts: given.starts, ..empty(Call::Group, n) }
}

/// A number of literals; in half of the cases one that a cube of the list has.
fn number(random: &mut Random, faults: &Faults, cubes: &[Cube]) -> u64 {
    if faults.has(21) {
        return random.pick(&[33, 34, 64, 255, 256, 288, 65536, 1 << 32, 1 << 63, u64::MAX]);
    }
    match random.below(4) {
        0 | 1 if !cubes.is_empty() => literals(&cubes[random.below(cubes.len())]) as u64,
        2 => random.pick(&[0, 1, 31, 32]),
        _ => random.below(33) as u64,
    }
}

/// A run, and an index buffer for the capacity of its work buffer.
pub fn run_indexed_case(random: &mut Random, faults: &Faults) -> Case {
    let (work_too_small, index_too_short) = match faults.has(5) {
        true => random.pick(&[(true, false), (false, true), (true, true)]),
        false => (false, false),
    };
    let others = faults.0.iter().copied().filter(|&number| number != 5 || work_too_small);
    let run = script_case(random, &Faults(others.collect()), Call::Run);
    let capacity = (run.work.len() / RECORD).min(RECORDS);
    let out = lent(random, PLACE * capacity, index_too_short);
    Case { call: Call::RunIndexed, out, starts: garbage(random), ..run }
}
