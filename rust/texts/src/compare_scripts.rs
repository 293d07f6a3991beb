//! A script as text, by the reader and by the program: what `compact` prints, and where `settle` refuses a step, on a map without products.

use crate::lines::Refusal;
use crate::map::{Map, Product};
use crate::program::{Program, told};
use crate::script::{Step, compacted, printed, read};
use crate::script_texts::For;

pub const GIVEN: &str = "given.steps";
const MAP: &str = "map.pla";
const EMPTY: &str = "empty.pla";

/// What both say of a script that is read.
pub struct Answer {
    pub steps: usize,
    /// What a step is refused by on a map without products, if one is.
    pub refused_by: Option<usize>,
    /// Steps that are removed, where no step is bad.
    pub removed: Option<usize>,
}

/// What both say of a text, or how they differ.
pub fn compare(program: &Program, script: &For, text: &[u8]) -> Result<Result<Answer, Refusal>, String> {
    let products = vec![Product { outputs: 1, ..Product::default() }; script.products];
    let map = Map { inputs: script.inputs, outputs: 1, products };
    let empty = Map { inputs: script.inputs, outputs: script.outputs, products: Vec::new() };
    program.write(GIVEN, text)?;
    program.write(MAP, map.to_string().as_bytes())?;
    program.write(EMPTY, empty.to_string().as_bytes())?;
    match read(text) {
        Err(refusal) => {
            program.must_refuse(&["compact", MAP, GIVEN], GIVEN, &told(refusal), refusal.number)?;
            program.must_refuse(&["settle", EMPTY, GIVEN], GIVEN, &told(refusal), refusal.number)?;
            Ok(Err(refusal))
        }
        Ok(steps) => {
            let removed = compact(program, &map, &steps)?;
            let refused_by = settle(program, &empty, &steps)?;
            Ok(Ok(Answer { steps: steps.len(), refused_by, removed }))
        }
    }
}

/// The first step that is bad for a map.
fn bad(map: &Map, steps: &[(usize, Step)]) -> Option<usize> {
    steps.iter().position(|(_, step)| step.is_bad(map.inputs, map.outputs))
}

/// A place of a step that is told with its line.
fn at_step(steps: &[(usize, Step)], at: usize) -> String {
    format!("line {}, step {at}: ", steps[at].0)
}

/// How many steps are removed, where none is bad.
fn compact(program: &Program, map: &Map, steps: &[(usize, Step)]) -> Result<Option<usize>, String> {
    let words = ["compact", MAP, GIVEN];
    if let Some(at) = bad(map, steps) {
        program.must_refuse(&words, GIVEN, &at_step(steps, at), 9)?;
        return Ok(None);
    }
    let left = compacted(steps.iter().map(|&(_, step)| step).collect(), map.products.len());
    let counts = format!("steps {} left {}\n", steps.len(), left.len());
    program.must_say(&words, &printed(&left), &counts)?;
    Ok(Some(steps.len() - left.len()))
}

/// On a map without products the first step that names a place is refused by 10, and an L step never is.
fn settle(program: &Program, empty: &Map, steps: &[(usize, Step)]) -> Result<Option<usize>, String> {
    let words = ["settle", EMPTY, GIVEN];
    let without_product = || steps.iter().position(|(_, step)| !matches!(step, Step::L(..))).map(|at| (10, at));
    if let Some((number, at)) = bad(empty, steps).map(|at| (9, at)).or_else(without_product) {
        program.must_refuse(&words, GIVEN, &at_step(steps, at), number)?;
        return Ok(Some(number));
    }
    let said = program.run(&words)?;
    if said.out == empty.to_string().as_bytes() {
        return Ok(None);
    }
    Err(format!("settle: a map without products\n{}", said.shown()))
}
