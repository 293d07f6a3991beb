//! The rules that a step breaks in a shared list, each looked at by itself: the first of them is answered.

use crate::broken;
use crate::differ::Case;
use model::script::{self, STEP};
use model::shared::{self, SHARED_RECORD, Shared, Step};

/// The refusals at a step of a shared list, in the order in which they are tested.
pub const AT_A_SHARED_STEP: [u64; 9] = [10, 11, 16, 17, 18, 19, 22, 23, 13];

/// What one step can break together there, beside what it can in a plain list.
pub const SHARED_TOGETHER: [(u64, u64); 7] = [(10, 22), (10, 23), (11, 23), (16, 22), (17, 22), (18, 22), (19, 22)];

/// The same of a shared list as `broken::broken_in` of a plain one.
pub fn broken_in(case: &Case, place: usize) -> Vec<u64> {
    let n = case.n as usize;
    let mut list = case.products();
    let capacity = (case.work.len() / SHARED_RECORD).min(4096);
    for step in case.script.chunks(STEP).take(place + 1).filter_map(|bytes| shared::decoded_step(n, bytes)) {
        let broken = broken(&list, step, capacity);
        if !broken.is_empty() {
            return broken;
        }
        shared::step(&mut list, step, capacity, 0).expect("a step that breaks no rule");
    }
    vec![]
}

/// In the order of [`AT_A_SHARED_STEP`]. Past the end of the list stands the product with no literal and no outputs, as it does
/// in a cleared buffer.
pub fn broken(list: &Shared, step: Step, capacity: usize) -> Vec<u64> {
    let outputs = |place: usize| list.outputs.get(place).map_or(&[][..], |outputs| outputs);
    let mut met = match step {
        Step::Plain(step) => broken::broken(&list.cubes, step, capacity),
        // A merge needs what a drop needs of its cubes, under another number.
        Step::Merge { i, j } => broken::broken(&list.cubes, script::Step::Drop { i, j }, capacity),
    };
    match step {
        Step::Plain(script::Step::Drop { i, j } | script::Step::Join { i, j } | script::Step::Turn { i, j, .. }) => {
            met.extend((outputs(i) != outputs(j)).then_some(22));
        }
        Step::Plain(_) => {}
        Step::Merge { i, j } => {
            let apart = met.contains(&16);
            met.retain(|&number| number != 16);
            met.extend((apart || outputs(i) == outputs(j)).then_some(23));
        }
    }
    AT_A_SHARED_STEP.into_iter().filter(|number| met.contains(number)).collect()
}
