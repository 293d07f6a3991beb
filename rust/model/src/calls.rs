//! The library's calls over bytes: what each refuses, in document 01's order, what it answers and what it writes.

use crate::compactor;
use crate::cost::cost;
use crate::cube::{
    self, Cube, NARROW_RECORD, PLACE, RECORD, decoded_places, encoded_list, encoded_narrow_list, encoded_places,
};
use crate::index::{self, MOST_LITERALS, Starts, first_wrong};
use crate::kronecker;
use crate::polarity;
use crate::refusal::{Refusal, refuse_at_if, refuse_if};
use crate::script::{self, STEP, STEPS, Step, encoded_script};
use crate::settling;
use crate::shared::{self, SHARED_RECORD, Shared};
use crate::trees;
use crate::writer;

/// The values that an accepted call answers, in document 01's order.
pub type Outcome = Result<Vec<u64>, Refusal>;

/// The eight words of an answer: refusal number, place, values, zeros. A refusal's value is its third answer.
pub fn words(outcome: &Outcome) -> [u64; 8] {
    let mut words = [0; 8];
    match outcome {
        Ok(values) => words[2..2 + values.len()].copy_from_slice(values),
        Err(refusal) => words[..3].copy_from_slice(&[refusal.number, refusal.place, refusal.differing]),
    }
    words
}

/// Document 02, Seven: "lists hold n up to 32", and "the limits of 8 variables stay".
const MOST_VARIABLES: u64 = 32;
const VECTOR_VARIABLES: u64 = 8;

/// Document 02, Ten: "for at most 6 variables".
const KRONECKER_VARIABLES: u64 = 6;

/// The variables that an old list's records have bits for.
const NARROW_VARIABLES: u64 = 16;

pub fn check(n: u64, list: &[u8]) -> Outcome {
    let list = checked_list(n, MOST_VARIABLES, list)?;
    Ok(vec![list.len() as u64])
}

/// Document 02, One: "the value call also answers with the number of true products".
pub fn value(n: u64, list: &[u8], a: u64) -> Outcome {
    let list = checked_list_at(n, list, a)?;
    Ok(vec![cube::value(&list, a) as u64, cube::trues(&list, a) as u64])
}

/// The same: "answer their number and the bit"; "those of the value call, then 5 for a buffer shorter than 2 bytes a record".
pub fn reasons(n: u64, list: &[u8], a: u64, out: &mut [u8]) -> Outcome {
    let list = checked_list_at(n, list, a)?;
    refuse_if(out.len() < PLACE * list.len(), 5)?;
    let places = cube::reasons(&list, a);
    write_front(out, &encoded_places(&places));
    Ok(vec![places.len() as u64, cube::value(&list, a) as u64])
}

pub fn truth_vector(n: u64, list: &[u8], out: &mut [u8]) -> Outcome {
    let list = checked_list(n, VECTOR_VARIABLES, list)?;
    refuse_if(out.len() < 1 << n, 5)?;
    write_front(out, &cube::truth_vector(n as usize, &list));
    Ok(vec![1 << n])
}

pub fn coefficients(n: u64, vector: &[u8], p: u64, out: &mut [u8]) -> Outcome {
    check_bits(n, VECTOR_VARIABLES, vector)?;
    refuse_if(has_bit_from(n, p), 15)?;
    refuse_if(out.len() < 1 << n, 5)?;
    write_front(out, &polarity::coefficients(vector, p as usize));
    Ok(vec![1 << n])
}

pub fn vector(n: u64, coefficients: &[u8], p: u64, out: &mut [u8]) -> Outcome {
    check_bits(n, VECTOR_VARIABLES, coefficients)?;
    refuse_if(has_bit_from(n, p), 15)?;
    refuse_if(out.len() < 1 << n, 5)?;
    write_front(out, &polarity::vector(coefficients, p as usize));
    Ok(vec![1 << n])
}

pub fn write_form(n: u64, coefficients: &[u8], p: u64, out: &mut [u8]) -> Outcome {
    check_bits(n, VECTOR_VARIABLES, coefficients)?;
    refuse_if(has_bit_from(n, p), 15)?;
    let form = polarity::form(n as usize, coefficients, p as usize);
    refuse_if(capacity(out) < form.len(), 5)?;
    write_front(out, &encoded_list(&form));
    Ok(vec![form.len() as u64])
}

pub fn best_polarity(n: u64, vector: &[u8]) -> Outcome {
    check_bits(n, VECTOR_VARIABLES, vector)?;
    let best = polarity::best(n as usize, vector);
    Ok(vec![best.polarity as u64, best.size as u64])
}

/// Document 02, Six: "write its list, answering its products and cost"; "refusals: those of writing a form's list, without 15".
pub fn write_tree(n: u64, vector: &[u8], out: &mut [u8]) -> Outcome {
    check_bits(n, VECTOR_VARIABLES, vector)?;
    let list = trees::list(vector);
    refuse_if(capacity(out) < list.len(), 5)?;
    write_front(out, &encoded_list(&list));
    Ok(vec![list.len() as u64, cost(&list) as u64])
}

/// Document 02, Ten: "answer the least cost and, among those, the smallest choice, and write that list in Six's order"; "refusals:
/// those of Six, with 1 at n above 6".
pub fn write_kronecker(n: u64, vector: &[u8], out: &mut [u8]) -> Outcome {
    check_bits(n, KRONECKER_VARIABLES, vector)?;
    let form = kronecker::cheapest(n as usize, vector);
    refuse_if(capacity(out) < form.list.len(), 5)?;
    write_front(out, &encoded_list(&form.list));
    Ok([cost(&form.list), form.choice, form.list.len()].map(|value| value as u64).to_vec())
}

pub fn run(n: u64, list: &[u8], script: &[u8], work: &mut [u8]) -> Outcome {
    let given = checked_list(n, MOST_VARIABLES, list)?;
    refuse_if(capacity(work) < given.len(), 5)?;
    let script = checked_script(n, script)?;
    let outcome = script::run(&given, &script, capacity(work));
    work.fill(0);
    let run = outcome?;
    write_front(work, &encoded_list(&run.list));
    Ok(vec![run.list.len() as u64, run.peak as u64])
}

pub fn settle(n: u64, list: &[u8], script: &[u8], work: &mut [u8], out: &mut [u8]) -> Outcome {
    let given = checked_list(n, MOST_VARIABLES, list)?;
    refuse_if(capacity(work) < given.len(), 5)?;
    refuse_if(capacity(out) < given.len(), 5)?;
    let script = checked_script(n, script)?;
    let outcome = settling::settle(n as usize, &given, &script, capacity(work));
    work.fill(0);
    let settled = outcome?;
    out.fill(0);
    write_front(out, &encoded_list(&settled.burned));
    let (polarity, size) = match settled.fixed {
        Some(best) => (best.polarity as u64, best.size as u64),
        None => (u64::MAX, u64::MAX),
    };
    let counts = [settled.given, settled.peak, settled.script].map(|count| count as u64);
    Ok([&counts[..], &[polarity, size, settled.burned.len() as u64]].concat())
}

/// Document 02, Three: "1 to 4, then 5 for the work buffer, then 5 for a script buffer shorter than 8 times the smaller of
/// the count and 1,024"; "it answers the number of steps and which".
pub fn write_script(n: u64, list: &[u8], work: &mut [u8], script: &mut [u8]) -> Outcome {
    let given = checked_list(n, MOST_VARIABLES, list)?;
    refuse_if(capacity(work) < given.len(), 5)?;
    refuse_if(script.len() < STEP * given.len().min(STEPS), 5)?;
    let written = writer::written(&given);
    work.fill(0);
    write_front(work, &encoded_list(&written.list));
    write_front(script, &encoded_script(&written.steps));
    Ok(vec![written.steps.len() as u64, written.finished as u64])
}

/// Document 02, Eleven: "1, 3 for a count above 4,096, 7, 8, 9, then 5 for an output shorter than the script"; "it answers the
/// steps left".
pub fn compact(n: u64, count: u64, script: &[u8], out: &mut [u8]) -> Outcome {
    refuse_if(n > MOST_VARIABLES, 1)?;
    refuse_if(count > 4096, 3)?;
    let steps = checked_script(n, script)?;
    refuse_if(out.len() < script.len(), 5)?;
    let left = compactor::compacted(count as usize, &steps);
    write_front(out, &encoded_script(&left));
    Ok(vec![left.len() as u64])
}

/// Document 02, Eight: "1 to 4, then 5 for an index buffer shorter than 2 bytes a record".
pub fn index(n: u64, list: &[u8], index: &mut [u8], starts: &mut Starts) -> Outcome {
    let list = checked_indexed_list(n, list, index)?;
    let built = index::index(&list);
    write_front(index, &encoded_places(&built.places));
    *starts = built.starts;
    Ok(vec![list.len() as u64])
}

/// The same: "then 25 for a lent index that is not this list's (place: the first wrong entry, or the first wrong group start),
/// entries before starts, then 21 for a number above 32". It answers how many entries the run has, and the one it begins at.
pub fn group(n: u64, list: &[u8], index: &[u8], starts: &Starts, number: u64) -> Outcome {
    let list = checked_indexed_list(n, list, index)?;
    let right = index::index(&list);
    let entries = decoded_places(&index[..PLACE * list.len()]);
    for wrong in [first_wrong(&entries, &right.places), first_wrong(starts, &right.starts)] {
        refuse_at_if(wrong.is_some(), 25, wrong.unwrap_or(0))?;
    }
    refuse_if(number > MOST_LITERALS, 21)?;
    let (start, entries) = right.group(number);
    Ok(vec![entries, start])
}

/// The same: "a sibling of run keeps one for the work list"; "zeros after it; a refusal at a step zeroes it"; "5 for an index buffer
/// shorter than 2 bytes a record (in the run, of work capacity, after the work's 5)".
pub fn run_indexed(
    n: u64,
    list: &[u8],
    script: &[u8],
    work: &mut [u8],
    index: &mut [u8],
    starts: &mut Starts,
) -> Outcome {
    let given = checked_list(n, MOST_VARIABLES, list)?;
    refuse_if(capacity(work) < given.len(), 5)?;
    refuse_if(index.len() < PLACE * capacity(work), 5)?;
    let script = checked_script(n, script)?;
    let outcome = script::run(&given, &script, capacity(work));
    work.fill(0);
    index.fill(0);
    starts.fill(0);
    let run = outcome?;
    let kept = index::index(&run.list);
    write_front(work, &encoded_list(&run.list));
    write_front(index, &encoded_places(&kept.places));
    *starts = kept.starts;
    Ok(vec![run.list.len() as u64, run.peak as u64])
}

/// Document 02, Nine: "4 also for zero outputs".
pub fn shared_check(n: u64, list: &[u8]) -> Outcome {
    let list = checked_shared_list(n, list)?;
    Ok(vec![list.cubes.len() as u64])
}

/// The same: "the value call answers all 32 as one word".
pub fn shared_value(n: u64, list: &[u8], a: u64) -> Outcome {
    let list = checked_shared_list(n, list)?;
    refuse_if(has_bit_from(n, a), 6)?;
    Ok(vec![shared::value(&list, a)])
}

pub fn shared_run(n: u64, list: &[u8], script: &[u8], work: &mut [u8]) -> Outcome {
    let given = checked_shared_list(n, list)?;
    refuse_if(shared_capacity(work) < given.cubes.len(), 5)?;
    let script = checked_shared_script(n, script)?;
    let outcome = shared::run(&given, &script, shared_capacity(work));
    work.fill(0);
    let run = outcome?;
    write_front(work, &shared::encoded_list(&run.list));
    Ok(vec![run.list.cubes.len() as u64, run.peak as u64])
}

pub fn shared_settle(n: u64, list: &[u8], script: &[u8], work: &mut [u8], out: &mut [u8]) -> Outcome {
    let given = checked_shared_list(n, list)?;
    refuse_if(shared_capacity(work) < given.cubes.len(), 5)?;
    refuse_if(shared_capacity(out) < given.cubes.len(), 5)?;
    let script = checked_shared_script(n, script)?;
    let outcome = shared::settle(&given, &script, shared_capacity(work));
    work.fill(0);
    let settled = outcome?;
    out.fill(0);
    write_front(out, &shared::encoded_list(&settled.burned));
    let counts = [settled.given, settled.peak, settled.script, settled.burned.cubes.len()];
    Ok(counts.map(|count| count as u64).to_vec())
}

/// Document 02, Seven: "wide from narrow gives the same cubes at the same places".
pub fn wide_from_narrow(n: u64, list: &[u8], out: &mut [u8]) -> Outcome {
    let list = checked_records(n, NARROW_VARIABLES, NARROW_RECORD, list)?;
    refuse_if(out.len() < RECORD * list.len(), 5)?;
    write_front(out, &encoded_list(&list));
    Ok(vec![list.len() as u64])
}

/// The same: "and narrow from wide undoes it".
pub fn narrow_from_wide(n: u64, list: &[u8], out: &mut [u8]) -> Outcome {
    refuse_if(n > MOST_VARIABLES, 1)?;
    refuse_if(n > NARROW_VARIABLES, 20)?;
    let list = checked_list(n, MOST_VARIABLES, list)?;
    refuse_if(out.len() < NARROW_RECORD * list.len(), 5)?;
    write_front(out, &encoded_narrow_list(&list));
    Ok(vec![list.len() as u64])
}

/// Rules 1 to 4.
fn checked_list(n: u64, limit: u64, list: &[u8]) -> Result<Vec<Cube>, Refusal> {
    checked_records(n, limit, RECORD, list)
}

/// Rules 1 to 4 and 6.
fn checked_list_at(n: u64, list: &[u8], a: u64) -> Result<Vec<Cube>, Refusal> {
    let list = checked_list(n, MOST_VARIABLES, list)?;
    refuse_if(has_bit_from(n, a), 6)?;
    Ok(list)
}

/// Rules 1 to 4, and 5 of an index buffer.
fn checked_indexed_list(n: u64, list: &[u8], index: &[u8]) -> Result<Vec<Cube>, Refusal> {
    let list = checked_list(n, MOST_VARIABLES, list)?;
    refuse_if(index.len() < PLACE * list.len(), 5)?;
    Ok(list)
}

/// Rules 1 to 4 of a shared list.
fn checked_shared_list(n: u64, list: &[u8]) -> Result<Shared, Refusal> {
    check_length(n, MOST_VARIABLES, SHARED_RECORD, list)?;
    let products = all_decoded(list.chunks(SHARED_RECORD), 4, |record| shared::decoded(n as usize, record))?;
    Ok(products.into_iter().collect())
}

/// Rules 1 to 4 of records that have so many bytes.
fn checked_records(n: u64, limit: u64, width: usize, list: &[u8]) -> Result<Vec<Cube>, Refusal> {
    check_length(n, limit, width, list)?;
    all_decoded(list.chunks(width), 4, |record| cube::decoded(n as usize, record))
}

/// Rules 1 to 3.
fn check_length(n: u64, limit: u64, width: usize, list: &[u8]) -> Result<(), Refusal> {
    refuse_if(n > limit, 1)?;
    refuse_if(!list.len().is_multiple_of(width), 2)?;
    refuse_if(list.len() / width > 4096, 3)
}

/// Rules 7 to 9.
fn checked_script(n: u64, script: &[u8]) -> Result<Vec<Step>, Refusal> {
    check_script_length(script)?;
    all_decoded(script.chunks(STEP), 9, |bytes| script::decoded(n as usize, bytes))
}

/// Rules 7 to 9 of a script for a shared list.
fn checked_shared_script(n: u64, script: &[u8]) -> Result<Vec<shared::Step>, Refusal> {
    check_script_length(script)?;
    all_decoded(script.chunks(STEP), 9, |bytes| shared::decoded_step(n as usize, bytes))
}

/// Rules 7 and 8.
fn check_script_length(script: &[u8]) -> Result<(), Refusal> {
    refuse_if(!script.len().is_multiple_of(STEP), 7)?;
    refuse_if(script.len() / STEP > STEPS, 8)
}

/// What each record or step says; refused with a number at the lowest that says nothing.
fn all_decoded<'a, T>(
    records: impl Iterator<Item = &'a [u8]>,
    number: u64,
    decoded: impl Fn(&[u8]) -> Option<T>,
) -> Result<Vec<T>, Refusal> {
    let all: Vec<Option<T>> = records.map(decoded).collect();
    let bad = all.iter().position(Option::is_none);
    refuse_at_if(bad.is_some(), number, bad.unwrap_or(0))?;
    Ok(all.into_iter().flatten().collect())
}

/// Rules 1 and 14.
fn check_bits(n: u64, limit: u64, bits: &[u8]) -> Result<(), Refusal> {
    refuse_if(n > limit, 1)?;
    refuse_at_if(bits.len() != 1 << n, 14, 1 << n)?;
    let bad = bits.iter().position(|&byte| byte > 1);
    refuse_at_if(bad.is_some(), 14, bad.unwrap_or(0))
}

/// "Its length divided by 8, rounded down, and at most 4,096": document 02, Seven, has 8 for 4.
fn capacity(buffer: &[u8]) -> usize {
    (buffer.len() / RECORD).min(4096)
}

/// Document 02, Nine: "capacities and refusal 2 go by 12 bytes".
fn shared_capacity(buffer: &[u8]) -> usize {
    (buffer.len() / SHARED_RECORD).min(4096)
}

fn has_bit_from(n: u64, number: u64) -> bool {
    (n..64).any(|k| number >> k & 1 == 1)
}

fn write_front(buffer: &mut [u8], bytes: &[u8]) {
    buffer[..bytes.len()].copy_from_slice(bytes);
}
