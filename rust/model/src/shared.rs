//! Document 02, Nine: "Several slot bits in one list."
//!
//! A shared list is a plain list and, beside it, the outputs of each product. A step does to the cubes what it does in a plain list;
//! what becomes of the outputs is worked out apart.

use crate::cube::{self, Cube, is_true};
use crate::refusal::{Refusal, refuse_at_if};
use crate::script::{self, STEP, remove};

/// Bytes of a record: "the wide cube, then four bytes of outputs".
pub const SHARED_RECORD: usize = cube::RECORD + 4;

/// "The value call answers all 32 as one word."
pub const OUTPUTS: u8 = 32;

/// The numbers of a product's outputs, ascending.
pub type Outputs = Vec<u8>;

/// The product at each place: its cube, and its outputs.
#[derive(Clone, Debug, Default, PartialEq, Eq)]
pub struct Shared {
    pub cubes: Vec<Cube>,
    pub outputs: Vec<Outputs>,
}

impl FromIterator<(Cube, Outputs)> for Shared {
    fn from_iter<I: IntoIterator<Item = (Cube, Outputs)>>(products: I) -> Shared {
        let (cubes, outputs) = products.into_iter().unzip();
        Shared { cubes, outputs }
    }
}

/// The product of a record, or nothing if the record is bad for `n` variables: its cube is, or it has no output.
pub fn decoded(n: usize, record: &[u8]) -> Option<(Cube, Outputs)> {
    let (cube, outputs) = record.split_at(cube::RECORD);
    let outputs: Outputs = (0..OUTPUTS).filter(|&k| outputs[k as usize / 8] >> (k % 8) & 1 == 1).collect();
    cube::decoded(n, cube).filter(|_| !outputs.is_empty()).map(|cube| (cube, outputs))
}

/// The records of a shared list, end to end.
pub fn encoded_list(list: &Shared) -> Vec<u8> {
    let records = list.cubes.iter().zip(&list.outputs).map(|(cube, outputs)| {
        let mut record = [0; SHARED_RECORD];
        record[..cube::RECORD].copy_from_slice(&cube::encoded::<{ cube::RECORD }>(cube));
        for k in outputs {
            record[cube::RECORD + *k as usize / 8] |= 1 << (k % 8);
        }
        record
    });
    records.flatten().collect()
}

/// "Output k's value is the parity over the products that carry bit k."
pub fn output(list: &Shared, k: u8, a: u64) -> u8 {
    let products = list.cubes.iter().zip(&list.outputs);
    let trues = products.filter(|(cube, outputs)| outputs.contains(&k) && is_true(cube, a));
    (trues.count() % 2) as u8
}

/// "All 32 as one word."
pub fn value(list: &Shared, a: u64) -> u64 {
    (0..OUTPUTS).map(|k| u64::from(output(list, k, a)) << k).sum()
}

/// A step of a plain script, or "a new step, op 6".
#[derive(Clone, Copy, Debug, PartialEq, Eq)]
pub enum Step {
    Plain(script::Step),
    Merge { i: usize, j: usize },
}

/// The step that 8 bytes say, or nothing where they break rule 9.
pub fn decoded_step(n: usize, bytes: &[u8]) -> Option<Step> {
    let place = |at: usize| bytes[at] as usize + 256 * bytes[at + 1] as usize;
    let merge = Step::Merge { i: place(2), j: place(4) };
    if encoded_step(merge) == bytes { Some(merge) } else { script::decoded(n, bytes).map(Step::Plain) }
}

/// The 8 bytes of a step: a merge uses the fields that a drop does.
pub fn encoded_step(step: Step) -> [u8; STEP] {
    match step {
        Step::Plain(step) => script::encoded(step),
        Step::Merge { i, j } => {
            let [_, rest @ ..] = script::encoded(script::Step::Drop { i, j });
            let mut bytes = [6; STEP];
            bytes[1..].copy_from_slice(&rest);
            bytes
        }
    }
}

/// The bytes of a script.
pub fn encoded_script(script: &[Step]) -> Vec<u8> {
    script.iter().flat_map(|&step| encoded_step(step)).collect()
}

/// One step on a shared list, as `script::step` does one on a plain list. After a refusal the list is nobody's concern.
pub fn step(list: &mut Shared, step: Step, capacity: usize, number: usize) -> Result<(), Refusal> {
    match step {
        Step::Plain(step) => {
            let unequal = places(step).is_some_and(|(i, j)| list.outputs.get(i) != list.outputs.get(j));
            script::step(&mut list.cubes, step, capacity, number)?;
            refuse_at_if(unequal, 22, number)?;
            follow(&mut list.outputs, step);
            Ok(())
        }
        Step::Merge { i, j } => merge(list, i, j, number),
    }
}

/// "Drop, join and turn need equal outputs": the places of their two products.
fn places(step: script::Step) -> Option<(usize, usize)> {
    match step {
        script::Step::Drop { i, j } | script::Step::Join { i, j } | script::Step::Turn { i, j, .. } => Some((i, j)),
        script::Step::Split { .. } | script::Step::L { .. } => None,
    }
}

/// What a step on the cubes does to the outputs beside them; "a split gives both halves i's".
fn follow(outputs: &mut Vec<Outputs>, step: script::Step) {
    match step {
        script::Step::Drop { i, j } => {
            remove(outputs, i.max(j));
            remove(outputs, i.min(j));
        }
        script::Step::Join { j, .. } => remove(outputs, j),
        script::Step::Split { i, .. } => outputs.push(outputs[i].clone()),
        script::Step::Turn { .. } | script::Step::L { .. } => {}
    }
}

/// "Merges two equal cubes with different outputs into place i with the EXOR of the outputs and removes j"; "23 for a merge whose
/// cubes differ or whose outputs are equal, after 11".
fn merge(list: &mut Shared, i: usize, j: usize, number: usize) -> Result<(), Refusal> {
    let count = list.cubes.len();
    refuse_at_if(i >= count || j >= count, 10, number)?;
    refuse_at_if(i == j, 11, number)?;
    refuse_at_if(list.cubes[i] != list.cubes[j] || list.outputs[i] == list.outputs[j], 23, number)?;
    let of_one = |k: &u8| list.outputs[i].contains(k) != list.outputs[j].contains(k);
    list.outputs[i] = (0..OUTPUTS).filter(of_one).collect();
    remove(&mut list.cubes, j);
    remove(&mut list.outputs, j);
    Ok(())
}

/// What a run answers: its list, and the greatest count that it met.
pub struct Run {
    pub list: Shared,
    pub peak: usize,
}

/// All steps in turn; then all L steps are undone, the last one first. They don't look at outputs.
pub fn run(given: &Shared, script: &[Step], capacity: usize) -> Result<Run, Refusal> {
    let mut list = given.clone();
    let mut peak = list.cubes.len();
    for (number, &each) in script.iter().enumerate() {
        step(&mut list, each, capacity, number)?;
        peak = peak.max(list.cubes.len());
    }
    list.cubes = script::undone(list.cubes, &plain(script));
    Ok(Run { list, peak })
}

/// The steps that are not merges.
pub fn plain(script: &[Step]) -> Vec<script::Step> {
    let plain = |step: &Step| if let Step::Plain(step) = step { Some(*step) } else { None };
    script.iter().filter_map(plain).collect()
}

/// The counts that a settling answers, and the list to burn.
pub struct Settled {
    pub given: usize,
    pub peak: usize,
    pub script: usize,
    pub burned: Shared,
}

/// "For these lists settling compares only the script's result and the given list, by products"; ties to the earlier.
pub fn settle(given: &Shared, script: &[Step], capacity: usize) -> Result<Settled, Refusal> {
    let run = run(given, script, capacity)?;
    let (given_count, script) = (given.cubes.len(), run.list.cubes.len());
    let burned = [run.list, given.clone()].into_iter().min_by_key(|list| list.cubes.len()).unwrap();
    Ok(Settled { given: given_count, peak: run.peak, script, burned })
}
