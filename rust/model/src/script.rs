//! "The steps of a script".

use crate::cube::Cube;
use crate::refusal::{Refusal, refuse_at_if, refuse_cubes_if};

/// Bytes of a step.
pub const STEP: usize = 8;

/// "Script: 0 to 1,024 steps."
pub const STEPS: usize = 1024;

/// A step with the fields that it uses.
#[derive(Clone, Copy, Debug, PartialEq, Eq)]
pub enum Step {
    Drop { i: usize, j: usize },
    Join { i: usize, j: usize },
    Split { v: usize, i: usize },
    Turn { v: usize, i: usize, j: usize },
    L { v: usize, literal: u8 },
}

/// The step that 8 bytes say, or nothing where they break rule 9.
pub fn decoded(n: usize, bytes: &[u8]) -> Option<Step> {
    let v = bytes[1] as usize;
    let i = bytes[2] as usize + 256 * bytes[3] as usize;
    let j = bytes[4] as usize + 256 * bytes[5] as usize;
    let literal = bytes[6];
    let step = match bytes[0] {
        1 => Step::Drop { i, j },
        2 => Step::Join { i, j },
        3 => Step::Split { v, i },
        4 => Step::Turn { v, i, j },
        5 => Step::L { v, literal },
        _ => return None,
    };
    let used_are_in_range = match step {
        Step::Split { v, .. } | Step::Turn { v, .. } => v < n,
        Step::L { v, literal } => v < n && literal <= 1,
        _ => true,
    };
    // Encoding writes zero into every field that the operation does not use.
    (used_are_in_range && encoded(step) == bytes).then_some(step)
}

/// The 8 bytes of a step.
pub fn encoded(step: Step) -> [u8; STEP] {
    let fields = |op, v: usize, i: usize, j: usize, literal| {
        [op, v as u8, (i % 256) as u8, (i / 256) as u8, (j % 256) as u8, (j / 256) as u8, literal, 0]
    };
    match step {
        Step::Drop { i, j } => fields(1, 0, i, j, 0),
        Step::Join { i, j } => fields(2, 0, i, j, 0),
        Step::Split { v, i } => fields(3, v, i, 0, 0),
        Step::Turn { v, i, j } => fields(4, v, i, j, 0),
        Step::L { v, literal } => fields(5, v, 0, 0, literal),
    }
}

/// The bytes of a script.
pub fn encoded_script(script: &[Step]) -> Vec<u8> {
    script.iter().flat_map(|&step| encoded(step)).collect()
}

/// The remaining one of the codes 0, 1, 2.
pub fn third(x: u8, y: u8) -> u8 {
    (0..3).find(|&code| code != x && code != y).unwrap()
}

/// The variables at which two cubes differ.
pub fn differing(a: &Cube, b: &Cube) -> Vec<usize> {
    (0..a.len()).filter(|&k| a[k] != b[k]).collect()
}

/// One step on a list, with the count at which a split is refused; the place of a refusal is `number`.
pub fn step(list: &mut Vec<Cube>, step: Step, capacity: usize, number: usize) -> Result<(), Refusal> {
    let count = list.len();
    let (i, j) = match step {
        Step::Drop { i, j } | Step::Join { i, j } | Step::Turn { i, j, .. } => (Some(i), Some(j)),
        Step::Split { i, .. } => (Some(i), None),
        Step::L { .. } => (None, None),
    };
    let outside = |place: Option<usize>| place.is_some_and(|place| place >= count);
    refuse_at_if(outside(i) || outside(j), 10, number)?;
    refuse_at_if(i.is_some() && i == j, 11, number)?;
    match step {
        Step::Drop { i, j } => {
            refuse_cubes_if(list[i] != list[j], 16, number, &differing(&list[i], &list[j]))?;
            remove(list, i.max(j));
            remove(list, i.min(j));
        }
        Step::Join { i, j } => {
            let apart = differing(&list[i], &list[j]);
            refuse_cubes_if(apart.len() != 1, 17, number, &apart)?;
            let v = apart[0];
            list[i][v] = third(list[i][v], list[j][v]);
            remove(list, j);
        }
        Step::Split { v, i } => {
            refuse_at_if(count == capacity, 13, number)?;
            let others: Vec<u8> = (0..3).filter(|&code| code != list[i][v]).collect();
            let mut appended = list[i].clone();
            list[i][v] = others[0];
            appended[v] = others[1];
            list.push(appended);
        }
        Step::Turn { v, i, j } => {
            let apart = differing(&list[i], &list[j]);
            refuse_cubes_if(apart.len() != 2, 18, number, &apart)?;
            refuse_cubes_if(list[i][v] == list[j][v], 19, number, &apart)?;
            let w = *apart.iter().find(|&&k| k != v).unwrap();
            let (a, b) = (list[i].clone(), list[j].clone());
            list[i][v] = third(a[v], b[v]);
            list[j][w] = third(a[w], b[w]);
        }
        Step::L { v, literal } => exchange(list, v, literal),
    }
    Ok(())
}

/// What a run answers: its list, and the greatest count that it met.
pub struct Run {
    pub list: Vec<Cube>,
    pub peak: usize,
}

/// All steps in turn; then all L steps are undone, the last one first.
pub fn run(given: &[Cube], script: &[Step], capacity: usize) -> Result<Run, Refusal> {
    let mut list = given.to_vec();
    let mut peak = list.len();
    for (number, &each) in script.iter().enumerate() {
        step(&mut list, each, capacity, number)?;
        peak = peak.max(list.len());
    }
    Ok(Run { list: undone(list, script), peak })
}

/// A list with all L steps of a script undone, the last one first.
pub fn undone(mut list: Vec<Cube>, script: &[Step]) -> Vec<Cube> {
    for &each in script.iter().rev() {
        if let Step::L { v, literal } = each {
            exchange(&mut list, v, literal);
        }
    }
    list
}

/// "To remove a place: copy the last record there, shorten by one."
pub fn remove<T: Clone>(list: &mut Vec<T>, place: usize) {
    list[place] = list[list.len() - 1].clone();
    list.pop();
}

/// "In every cube, at v, that literal's code and 2 are exchanged"; it undoes itself.
fn exchange(list: &mut [Cube], v: usize, literal: u8) {
    for cube in list {
        if cube[v] == literal {
            cube[v] = 2;
        } else if cube[v] == 2 {
            cube[v] = literal;
        }
    }
}
