//! A compacted script beside the given one, and compacted once more.

use crate::callers::by_words;
use crate::differ::{After, Case};
use crate::replays::expect;
use model::script::STEP;

/// Looks at what an accepted call of compact has left: its steps are among the given ones, in the same order, and "compacting
/// twice is the same as once".
pub fn once_more(case: &Case, after: &After) -> Result<(), String> {
    const MORE: [u8; 3] = [0xc3; 3];
    let [0, _, steps, ..] = after.answer else { return Ok(()) };
    let short = &after.out[..STEP * steps as usize];
    let mut given = case.script.chunks(STEP);
    let are_among = short.chunks(STEP).all(|step| given.any(|other| other == step));
    expect(are_among, "the steps left are not among the given ones", case, after)?;

    let room = vec![MORE[0]; short.len() + MORE.len()];
    let again = by_words(&Case { script: short.to_vec(), out: room, ..case.clone() })?;
    let same = again.answer == after.answer && again.out == [short, &MORE].concat();
    expect(same, "compacting twice is not the same as once", case, &again)
}
