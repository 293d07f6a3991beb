//! A map of several lists beside the calls on each of its lists, and the slots before it is settled beside those after.

use crate::callers::by_words;
use crate::differ::{After, Call, Case, empty};
use crate::map_parts::cut;
use crate::replays::expect;
use crate::some_labels::labels;
use model::cube::{PLACE, RECORD};
use model::selector::{MOST_LISTS, PerList};

/// Stands for a list's number where the map is refused for none of its lists.
pub const NO_LIST: u64 = u64::MAX;

/// Looks at what a call on a map has left. "A refused list or script refuses the map, with the list's number, and every buffer that the call writes ends
/// all zero"; "only the first three below write nothing". Accepted, it is what the calls on its lists answer and leave.
pub fn beside_lists(case: &Case, after: &After) -> Result<(), String> {
    let [number, _, _, list, ..] = after.answer;
    if number != 0 && list == NO_LIST {
        let untouched = after.work == case.work && after.out == case.out && after.numbers == case.numbers;
        return expect(matches!(number, 5 | 24 | 26) && untouched, "something is written", case, after);
    }
    let mut each = Vec::new();
    for k in 0..case.lengths.len() {
        let one = by_words(&case.alone(k))?;
        let [number, place, third, ..] = one.answer;
        if number != 0 {
            let refused = after.answer == [number, place, third, k as u64, 0, 0, 0, 0];
            return expect(refused && is_zero(after), "not refused as the list is, or not all zero", case, after);
        }
        each.push(one);
    }
    expect(number == 0, "refused, and no list is", case, after)?;
    expect(after.answer[3..] == [0; 5], "words behind the value", case, after)?;
    match case.call {
        Call::Slot => {
            expect(after.answer[2] == bits(&each, 2), "a bit is not the value of its list", case, after)?;
        }
        Call::SettleMap => settled(case, after, &each)?,
        _ => shown(case, after, &each)?,
    }
    Ok(())
}

fn is_zero(after: &After) -> bool {
    [&after.work, &after.out].iter().all(|bytes| bytes.iter().all(|&byte| byte == 0))
        && after.numbers == [0; MOST_LISTS]
}

/// The number whose bit k is that word of list k's answer.
fn bits(each: &[After], word: usize) -> u64 {
    each.iter().rev().fold(0, |number, one| 2 * number + one.answer[word])
}

/// So many for each list, and zeros after the last.
fn per_list(each: &[After], number: impl Fn(&After) -> u64) -> PerList {
    std::array::from_fn(|k| each.get(k).map_or(0, &number))
}

/// Each burned list is what settle alone burns; the map costs what they cost, and no more than it did; and every label has the slot that it had.
fn settled(case: &Case, after: &After, each: &[After]) -> Result<(), String> {
    let burned: Vec<&[u8]> = each.iter().map(|one| &one.out[..RECORD * one.answer[7] as usize]).collect();
    let mut out = burned.concat();
    let end = out.len();
    out.resize(case.out.len(), 0);
    let lengths = per_list(each, |one| RECORD as u64 * one.answer[7]);
    let left = after.out == out && after.numbers == lengths && after.work.iter().all(|&byte| byte == 0);
    expect(left, "not the lists that settle burns, end to end", case, after)?;
    let [cost, given] = [&burned, &case.lists()].map(|lists| lists.iter().map(|list| cost(list)).sum::<u64>());
    expect(
        after.answer[2] == cost && cost <= given,
        "not what the burned lists cost, or more than the given",
        case,
        after,
    )?;
    let lengths = lengths[..each.len()].to_vec();
    let settled = Case { input: out[..end].to_vec(), lengths, ..empty(Call::Slot, case.n) };
    for a in labels(case, &case.cubes()) {
        expect(slot_at(&settled, a)? == slot_at(case, a)?, "a label has another slot", case, after)?;
    }
    Ok(())
}

/// The records of a list, less one if some record has no literal.
pub fn cost(list: &[u8]) -> u64 {
    let records = list.chunks(RECORD);
    let count = records.len() as u64;
    count - u64::from(records.into_iter().any(|record| record[..RECORD / 2] == [0; RECORD / 2]))
}

/// The places are those that reasons writes for each list, end to end, and the slot is the one that is answered without them.
fn shown(case: &Case, after: &After, each: &[After]) -> Result<(), String> {
    let mut out: Vec<u8> = each.iter().flat_map(|one| one.out[..PLACE * one.answer[2] as usize].to_vec()).collect();
    out.extend(&case.out[out.len()..]);
    let left = after.out == out && after.numbers == per_list(each, |one| one.answer[2]);
    expect(left, "not the reasons of each list, end to end", case, after)?;
    let slot = slot_at(case, case.number)?;
    expect(after.answer[2] == slot && slot == bits(each, 3), "not the slot", case, after)
}

/// The slot that the library answers for the lists of a case at a label.
pub fn slot_at(case: &Case, a: u64) -> Result<u64, String> {
    let (input, lengths) = (case.input.clone(), case.lengths.clone());
    let case = Case { input, lengths, number: a, ..empty(Call::Slot, case.n) };
    let after = by_words(&case)?;
    expect(after.answer[0] == 0, "a slot is refused", &case, &after)?;
    Ok(after.answer[2])
}

/// The lists that a settled map has left.
pub fn burned<'a>(case: &Case, after: &'a After) -> Vec<&'a [u8]> {
    cut(&after.out, &after.numbers[..case.lengths.len()])
}
