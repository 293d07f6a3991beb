//! A map as text, by the reader and by the program: what `check` answers, and of an accepted one what `pack` writes and what `unpack` and `settle` print.

use crate::lines::Refusal;
use crate::map::Map;
use crate::map_reader::read;
use crate::program::{Program, told};

pub const GIVEN: &str = "given.pla";
const PACKED: &str = "packed.cub";

/// Up to so many inputs a list may be replaced without a script, and values are looked at everywhere.
const SEARCHED: usize = 8;

/// What both say of a text, or how they differ.
pub fn compare(program: &Program, text: &[u8]) -> Result<Result<Map, Refusal>, String> {
    program.write(GIVEN, text)?;
    let answer = read(text);
    match &answer {
        Err(refusal) => program.must_refuse(&["check", GIVEN], GIVEN, &told(*refusal), refusal.number)?,
        Ok(map) => accepted(program, map)?,
    }
    Ok(answer)
}

fn accepted(program: &Program, map: &Map) -> Result<(), String> {
    if read(map.to_string().as_bytes()).as_ref() != Ok(map) {
        return Err(format!("the reader reads what it prints as another map\n{map}"));
    }
    program.must_say(&["check", GIVEN], &checked(map), "")?;
    packed(program, map)?;
    settled(program, map)
}

/// What is told of a cost is for one output alone.
fn checked(map: &Map) -> String {
    let Map { inputs, outputs, products } = map;
    let cost = if *outputs == 1 { format!(" cost {}", map.cost()) } else { String::new() };
    format!("inputs {inputs} outputs {outputs} products {}{cost}\n", products.len())
}

fn packed(program: &Program, map: &Map) -> Result<(), String> {
    program.must_say(&["pack", GIVEN, PACKED], "", "")?;
    if map.outputs == 1 {
        program.must_say(&["unpack", &map.inputs.to_string(), PACKED], &map.to_string(), "")?;
    }
    let records = program.take(PACKED)?;
    if records == map.records() {
        return Ok(());
    }
    Err(format!("pack\nexpected: {:02x?}\nwritten: {records:02x?}", map.records()))
}

/// Without a script a list stays as it is, but for one output and few inputs, where another may cost less.
fn settled(program: &Program, map: &Map) -> Result<(), String> {
    let said = program.run(&["settle", GIVEN])?;
    let differs = |what: &str| Err(format!("settle: {what}\n{}", said.shown()));
    let Ok(burned) = read(&said.out) else { return differs("what is printed is refused") };
    if said.out != burned.to_string().as_bytes() {
        return differs("what is printed is not in the printer's form");
    }
    if !said.err.starts_with(&format!("in {} ", map.products.len())) {
        return differs("the count is another");
    }
    if map.outputs > 1 || map.inputs > SEARCHED {
        return if burned == *map { Ok(()) } else { differs("the list is another") };
    }
    if (burned.inputs, burned.outputs) != (map.inputs, map.outputs) || burned.cost() > map.cost() {
        return differs("the inputs or outputs are others, or the cost is higher");
    }
    match (0..1 << map.inputs).find(|&label| burned.values(label) != map.values(label)) {
        Some(label) => differs(&format!("another value at label {label}")),
        None => Ok(()),
    }
}
