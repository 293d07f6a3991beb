//! An index beside a search of the list for each number of literals, and a run with an index beside the one without.

use crate::callers::by_words;
use crate::differ::{After, Call, Case};
use crate::replays::expect;
use model::cube::{Cube, PLACE, RECORD, decoded_places};

/// The places of the cubes with so many literals, ascending.
pub fn places_with(list: &[Cube], number: u64) -> Vec<usize> {
    let has = |cube: &Cube| cube.iter().filter(|&&code| code < 2).count() as u64 == number;
    (0..list.len()).filter(|&place| has(&list[place])).collect()
}

/// Looks at what an accepted call of index has left: it is never refused, whatever stands behind the entries, and its groups are
/// what a search finds.
pub fn each_group(case: &Case, after: &After) -> Result<(), String> {
    if after.answer[0] != 0 {
        return Ok(());
    }
    let list = case.cubes();
    let mut shown = 0;
    for number in 0..=32 {
        let (out, starts) = (after.out.clone(), after.starts);
        let group = Case { call: Call::Group, number, out, starts, ..case.clone() };
        let asked = by_words(&group)?;
        expect(run(&asked) == Some(places_with(&list, number)), "a group is not what a search finds", &group, &asked)?;
        shown += asked.answer[2];
    }
    expect(shown == after.answer[2], "the groups are not all of the index", case, after)
}

/// Looks at the run of an accepted call of group: "exactly those places".
pub fn beside_search(case: &Case, after: &After) -> Result<(), String> {
    if after.answer[0] != 0 {
        return Ok(());
    }
    let found = places_with(&case.cubes(), case.number);
    expect(run(after) == Some(found), "the run is not what a search finds", case, after)
}

/// The places of an accepted run.
fn run(after: &After) -> Option<Vec<usize>> {
    let [0, 0, entries, start, ..] = after.answer else { return None };
    Some(decoded_places(after.out[PLACE * start as usize..].get(..PLACE * entries as usize)?))
}

/// Makes the call of run on the same arguments: it answers the same and leaves the same in work, unless there is no room for the
/// index; and at the end the index is the one built afresh, with zeros after it.
pub fn beside_run(case: &Case, after: &After) -> Result<(), String> {
    let without = by_words(&Case { call: Call::Run, out: vec![], ..case.clone() })?;
    let capacity = (case.work.len() / RECORD).min(4096);
    let no_room = case.out.len() < PLACE * capacity && !matches!(without.answer[0], 1..=5);
    let same = after.answer == without.answer && after.work == without.work;
    let expected = if no_room { after.answer == [5, 0, 0, 0, 0, 0, 0, 0] } else { same };
    expect(expected, "run has another outcome", case, &without)?;
    if after.answer[0] != 0 {
        return Ok(());
    }
    let count = after.answer[2] as usize;
    let (input, room) = (after.work[..RECORD * count].to_vec(), PLACE * count);
    let built = by_words(&Case { call: Call::Index, input, script: vec![], work: vec![], ..case.clone() })?;
    let kept = built.answer[0] == 0 && built.starts == after.starts && built.out[..room] == after.out[..room];
    expect(kept, "the index is not the one built afresh", case, &built)?;
    expect(after.out[room..].iter().all(|&byte| byte == 0), "the index has no zeros after it", case, after)
}
