//! The values of shared lists beside those of plain lists, and the values before a script beside those after it.

use crate::callers::by_words;
use crate::differ::{After, Call, Case, empty};
use crate::replays::expect;
use crate::some_labels::labels;
use model::cube::{RECORD, encoded_list};
use model::script::STEP;
use model::shared::{OUTPUTS, SHARED_RECORD, Shared};

/// The word that the library answers for a good list at an assignment.
pub fn word_at(n: u64, list: &[u8], a: u64) -> Result<u64, String> {
    let case = Case { input: list.to_vec(), number: a, ..empty(Call::SharedValue, n) };
    let after = by_words(&case)?;
    expect(after.answer[0] == 0, "a value is refused", &case, &after)?;
    Ok(after.answer[2])
}

/// Looks at an accepted word: bit k is the value of the plain list of the products that carry bit k.
pub fn beside_plain_values(case: &Case, after: &After) -> Result<(), String> {
    let [0, _, word, ..] = after.answer else { return Ok(()) };
    let list = case.products();
    for k in 0..OUTPUTS {
        let plain = Case { call: Call::Value, input: encoded_list(&carried(&list, k)), ..case.clone() };
        let value = by_words(&plain)?;
        expect(value.answer[..3] == [0, 0, word >> k & 1], "an output is not a plain list's value", case, &value)?;
    }
    expect(word >> OUTPUTS == 0, "there are no more outputs", case, after)
}

/// The cubes of the products that carry bit k.
fn carried(list: &Shared, k: u8) -> Vec<Vec<u8>> {
    let products = list.cubes.iter().zip(&list.outputs);
    products.filter(|(_, outputs)| outputs.contains(&k)).map(|(cube, _)| cube.clone()).collect()
}

/// Looks at what an accepted script has left: the count is as its steps say, every output has the value that it had, and where all products
/// have the same outputs a plain run leaves the same cubes.
pub fn keeps_values(case: &Case, after: &After) -> Result<(), String> {
    if after.answer[0] != 0 {
        return Ok(());
    }
    let (left, count, script) = match case.call {
        Call::SharedRun => (&after.work, after.answer[2], after.answer[2]),
        _ => (&after.out, after.answer[5], after.answer[4]),
    };
    let left = &left[..SHARED_RECORD * count as usize];
    expect(script == counted(case), "not the count that the steps say", case, after)?;
    for a in labels(case, &case.products().cubes) {
        let kept = word_at(case.n, left, a)? == word_at(case.n, &case.input, a)?;
        expect(kept, "an output has another value", case, after)?;
    }
    if case.call == Call::SharedRun { beside_plain_run(case, after) } else { burned(case, after, left) }
}

/// "The first count plus splits, less joins, less twice the drops", and less merges.
fn counted(case: &Case) -> u64 {
    let steps = |op| case.script.chunks(STEP).filter(|step| step[0] == op).count();
    (case.input.len() / SHARED_RECORD + steps(3) - steps(2) - steps(6) - 2 * steps(1)) as u64
}

/// A plain run of the cubes, where no product has other outputs than the rest: it answers the same, and leaves the same cubes.
fn beside_plain_run(case: &Case, after: &After) -> Result<(), String> {
    if !is_plain(case) {
        return Ok(());
    }
    let cubes =
        |list: &[u8]| list.chunks(SHARED_RECORD).flat_map(|record| record[..RECORD].to_vec()).collect::<Vec<_>>();
    let capacity = (case.work.len() / SHARED_RECORD).min(4096);
    let (input, work) = (cubes(&case.input), vec![0x5a; RECORD * capacity]);
    let plain = by_words(&Case { call: Call::Run, input, work, ..case.clone() })?;
    let left = cubes(&after.work[..SHARED_RECORD * capacity]);
    expect(plain.answer == after.answer && plain.work == left, "a plain run leaves another list", case, &plain)
}

/// Whether all outputs are the same, and no step is a merge.
pub fn is_plain(case: &Case) -> bool {
    let list = case.products();
    let same = list.outputs.iter().all(|outputs| *outputs == list.outputs[0]);
    same && case.script.chunks(STEP).all(|step| step[0] != 6)
}

/// Demand 3 in products: no more than the given list or the script's result has; and it is one of them.
fn burned(case: &Case, after: &After, burned: &[u8]) -> Result<(), String> {
    let [_, _, given, peak, script, count, ..] = after.answer;
    let run = by_words(&Case { call: Call::SharedRun, out: vec![], ..case.clone() })?;
    expect(run.answer[..4] == [0, 0, script, peak], "a run answers other counts", case, &run)?;
    let least = count <= given && count <= script;
    let taken = if script <= given { &run.work[..] } else { &case.input };
    expect(least && taken.starts_with(burned), "not the list with fewer products", case, after)
}
