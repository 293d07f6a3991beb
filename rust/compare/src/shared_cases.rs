//! Calls on shared lists, by chance.

use crate::cases::{RECORDS, VARIABLES, assignment, count, cubes, lent_for, many_variables, script_bytes, variables};
use crate::damage::{Faults, damaged_script, list_bytes};
use crate::differ::{Call, Case, empty};
use crate::random::Random;
use crate::shared_broken::AT_A_SHARED_STEP;
use crate::shared_scripts::script;
use model::shared::{OUTPUTS, Outputs, SHARED_RECORD, Shared, encoded_list, encoded_script};

pub fn list_case(random: &mut Random, faults: &Faults, call: Call) -> Case {
    let width = many_variables(random, VARIABLES);
    let n = variables(random, faults, width, VARIABLES);
    let count = count(random, faults);
    let words = random.between(1, 3);
    let list = products(random, width, count, words);
    let number = if call == Call::SharedValue { assignment(random, faults, width, &list.cubes) } else { 0 };
    let input = list_bytes(random, faults, width, SHARED_RECORD, encoded_list(&list));
    Case { input, number, ..empty(call, n) }
}

pub fn script_case(random: &mut Random, faults: &Faults, call: Call) -> Case {
    let width = match faults.at_a_step() {
        // Cubes that differ in as many variables as there can be.
        Some(16..=18) if random.one_in(6) => VARIABLES,
        // Cubes that are near each other.
        Some(19 | 22) if random.one_in(2) => random.between(2, 4),
        _ if random.one_in(2) => many_variables(random, VARIABLES),
        _ => random.below(5),
    };
    let n = variables(random, faults, width, VARIABLES);
    let count = count(random, faults);
    let words = random.between(if faults.has(22) { 2 } else { 1 }, 3);
    let list = products(random, width, count, words);
    let (work_too_small, out_too_small) = match call {
        _ if !faults.has(5) => (false, false),
        Call::SharedRun => (true, false),
        _ => random.pick(&[(true, false), (false, true), (true, true)]),
    };
    let mut lent = |too_small| lent_for(random, SHARED_RECORD, SHARED_RECORD * count, too_small);
    let work = lent(work_too_small);
    let out = if call == Call::SharedSettle { lent(out_too_small) } else { vec![] };
    let capacity = (work.len() / SHARED_RECORD).clamp(count.min(RECORDS), RECORDS);
    let script = script_bytes(random, faults, capacity - count, &AT_A_SHARED_STEP, |random, length, mistake| {
        encoded_script(&script(random, width, &list, capacity, length, mistake))
    });
    let script = damaged_script(random, faults, call, width, script);
    let input = list_bytes(random, faults, width, SHARED_RECORD, encoded_list(&list));
    Case { input, script, work, out, ..empty(call, n) }
}

/// Cubes with equal and near ones among them. Outputs are mostly one of a few words, so that steps find equal ones and merges different ones; where it
/// is one word, all are the same.
pub fn products(random: &mut Random, width: usize, count: usize, words: usize) -> Shared {
    let few: Vec<u32> = (0..words).map(|_| word(random)).collect();
    let cubes = cubes(random, width, count);
    let mut drawn = || if few.len() > 1 && random.one_in(8) { word(random) } else { random.pick(&few) };
    cubes.into_iter().map(|cube| (cube, outputs(drawn()))).collect()
}

/// The outputs whose bits are set.
pub fn outputs(word: u32) -> Outputs {
    (0..OUTPUTS).filter(|&k| word >> k & 1 == 1).collect()
}

/// Outputs that are not zero: one, the first or the last, a few, all, or any.
fn word(random: &mut Random) -> u32 {
    match random.below(5) {
        0 => 1 << random.below(32),
        1 => random.pick(&[1, 2, 3, 0x100, 0x1_0000, 1 << 31, 0x8000_0001, u32::MAX]),
        2 => random.between(1, 15) as u32,
        _ => (random.next() as u32).max(1),
    }
}
