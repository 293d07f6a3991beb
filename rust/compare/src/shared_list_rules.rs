//! Checks and values of shared lists, and what other rules than document 02's would have answered.

use crate::differ::Case;
use model::cube::{Cube, RECORD, decoded, is_true};
use model::shared::SHARED_RECORD;

/// The records of a list: the cube if it is good, and the outputs as a word.
pub type Records = Vec<(Option<Cube>, u32)>;

pub fn records(case: &Case) -> Records {
    let outputs = |record: &[u8]| u32::from_le_bytes(record[RECORD..].try_into().expect("four bytes"));
    let records = case.input.chunks_exact(SHARED_RECORD);
    records.map(|record| (decoded(case.n as usize, &record[..RECORD]), outputs(record))).collect()
}

/// The place of the record that is answered as bad.
pub type Check = fn(&Case, &Records) -> Option<usize>;

pub const BY_BOTH: Check = |_, records| records.iter().position(|(cube, outputs)| cube.is_none() || *outputs == 0);

pub const OTHER_CHECKS: [(&str, Check); 6] = [
    ("zero outputs let through", |_, records| records.iter().position(|(cube, _)| cube.is_none())),
    ("a bad cube let through", |_, records| records.iter().position(|(_, outputs)| *outputs == 0)),
    ("the last bad record", |_, records| records.iter().rposition(|(cube, outputs)| cube.is_none() || *outputs == 0)),
    ("cubes of all records before outputs", |_, records| {
        let no_outputs = records.iter().position(|(_, outputs)| *outputs == 0);
        records.iter().position(|(cube, _)| cube.is_none()).or(no_outputs)
    }),
    ("the first byte of the outputs alone", |_, records| {
        records.iter().position(|(cube, outputs)| cube.is_none() || outputs & 0xff == 0)
    }),
    ("outputs at or above n refused", |case, records| {
        let above = |outputs: u32| u64::from(outputs) >> case.n != 0;
        records.iter().position(|(cube, outputs)| cube.is_none() || *outputs == 0 || above(*outputs))
    }),
];

/// The word at an assignment.
pub type Value = fn(&[(Cube, u32)], u64) -> u32;

fn trues(list: &[(Cube, u32)], a: u64) -> impl Iterator<Item = u32> {
    list.iter().filter(move |(cube, _)| is_true(cube, a)).map(|(_, outputs)| *outputs)
}

pub const BY_PARITY: Value = |list, a| trues(list, a).fold(0, |word, outputs| word ^ outputs);

pub const OTHER_VALUES: [(&str, Value); 8] = [
    ("OR", |list, a| trues(list, a).fold(0, |word, outputs| word | outputs)),
    ("AND", |list, a| trues(list, a).reduce(|word, outputs| word & outputs).unwrap_or(0)),
    ("all products, true or not", |list, _| list.iter().fold(0, |word, (_, outputs)| word ^ outputs)),
    ("the parity of all true products for each output", |list, a| {
        let carried = list.iter().fold(0, |word, (_, outputs)| word | outputs);
        if trues(list, a).count() % 2 == 1 { carried } else { 0 }
    }),
    ("the first true product alone", |list, a| trues(list, a).next().unwrap_or(0)),
    ("the outputs of all true products but the last", |list, a| {
        BY_PARITY(list, a) ^ trues(list, a).last().unwrap_or(0)
    }),
    ("bit 31 for output 0", |list, a| BY_PARITY(list, a).reverse_bits()),
    ("sixteen outputs", |list, a| BY_PARITY(list, a) & 0xffff),
];
