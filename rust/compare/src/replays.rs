//! A written script beside the search from the front, and run and settled on the list that it was written for.

use crate::callers::by_words;
use crate::differ::{After, Call, Case, compare};
use crate::paths::Path;
use model::cube::RECORD;
use model::script::{STEP, encoded_script};

/// Looks at what an accepted call of write script has left: each step is at the first pair, "the script, run on the given
/// list with room for it, is never refused and gives that end list", and settled with it no longer list is burned.
pub fn replay(case: &Case, after: &After) -> Result<(), String> {
    let [0, _, steps, finished, ..] = after.answer else { return Ok(()) };
    let given = case.cubes();
    let script = &after.script[..STEP * steps as usize];
    if given.len() <= Path::RECORDS {
        let path = encoded_script(&Path::of(&given).steps());
        expect(path == script && finished == 1, "not the steps of a search from the front", case, after)?;
    }
    let room = RECORD * given.len();
    let run = Case { call: Call::Run, script: script.to_vec(), work: vec![0x5a; room], out: vec![], ..case.clone() };
    let (given, end) = (given.len() as u64, left(given.len(), script));

    let done = by_words(&run)?;
    let same = done.answer == [0, 0, end, given, 0, 0, 0, 0] && done.work == after.work[..room];
    expect(same, "run does not end in the same list", case, &done)?;

    let half = &script[..steps as usize / 2 * STEP];
    let answer = compare(&Case { script: half.to_vec(), ..run.clone() })?;
    let expected = [0, 0, left(given as usize, half), given, 0, 0, 0, 0];
    expect(answer == expected, "the first half of the script is not run", case, after)?;

    let settled = by_words(&Case { call: Call::Settle, out: vec![0xc3; room], ..run })?;
    let [number, _, _, peak, script_result, _, _, burned] = settled.answer;
    let no_longer = [number, peak, script_result] == [0, given, end] && burned <= end;
    expect(no_longer, "settle burns a longer list", case, &settled)
}

/// The records that are left of so many by drops and joins.
fn left(given: usize, script: &[u8]) -> u64 {
    let removed: usize = script.chunks(STEP).map(|step| if step[0] == 1 { 2 } else { 1 }).sum();
    (given - removed) as u64
}

pub fn expect(holds: bool, otherwise: &str, case: &Case, after: &After) -> Result<(), String> {
    if holds { Ok(()) } else { Err(format!("{otherwise}\n{case}\n{after}")) }
}
