//! Compares the program `druthmoy` with a reader and printer of maps and scripts as text that share nothing with it.
//!
//! `texts [COUNT [SEED [PROGRAM]]]`: so many random texts (5,000 if not said), where their generator starts, and the program, else the one that
//! `DRUTHMOY_PROGRAM` names, else the one in `crates/druthmoy_program/out`. Prints what was compared. At the first difference it prints that, leaves the text and
//! exits with 1.

mod compare_maps;
mod compare_scripts;
mod damage;
mod draft;
mod limits;
mod lines;
mod map;
mod map_reader;
mod map_texts;
mod program;
mod random;
mod script;
mod script_texts;
mod tally;

use damage::Kind;
use draft::Words;
use program::Program;
use random::Random;
use script_texts::For;
use std::fs;
use std::process::ExitCode;
use tally::Tally;

/// The text of the lines, which is damaged in half of the cases, and now and then as long as can be.
fn text(random: &mut Random, kind: &Kind, mut lines: Vec<Words>, damaged: bool) -> Vec<u8> {
    let by_bytes = random.one_in(3);
    if damaged && !by_bytes {
        for _ in 0..random.between(1, 3) {
            damage::of_lines(random, kind, &mut lines);
        }
    }
    let mut text = draft::laid_out(random, &lines);
    if damaged && by_bytes {
        damage::of_bytes(random, &mut text);
    }
    if random.one_in(100) { draft::lengthened(random, text) } else { text }
}

fn compare_map(random: &mut Random, program: &Program, damaged: bool, tally: &mut Tally) -> Result<(), String> {
    let lines = map_texts::drawn(random);
    let text = text(random, &Kind::Map, lines, damaged);
    tally.add_map(&text, &compare_maps::compare(program, &text)?);
    Ok(())
}

fn compare_script(random: &mut Random, program: &Program, damaged: bool, tally: &mut Tally) -> Result<(), String> {
    let script = For::draw(random);
    let lines = script_texts::drawn(random, &script);
    let text = text(random, &Kind::Script, lines, damaged);
    tally.add_script(&text, &compare_scripts::compare(program, &script, &text)?);
    Ok(())
}

/// A difference with the text that is left.
fn left(program: &Program, given: &str, difference: String) -> String {
    format!("{difference}\nthe text is left as {}", program.folder().join(given).display())
}

/// The texts at the limits; they are not in the tally.
fn compare_limits(program: &Program) -> Result<usize, String> {
    let (maps, scripts) = (limits::maps(), limits::scripts());
    for text in &maps {
        let compared = compare_maps::compare(program, text).map(drop);
        compared.map_err(|difference| left(program, compare_maps::GIVEN, difference))?;
    }
    for text in &scripts {
        let compared = compare_scripts::compare(program, &limits::FOR_SCRIPTS, text).map(drop);
        compared.map_err(|difference| left(program, compare_scripts::GIVEN, difference))?;
    }
    Ok(maps.len() + scripts.len())
}

/// The random texts, of which two thirds are maps.
fn compare_random(program: &Program, count: usize, seed: u64) -> Result<Tally, String> {
    let mut random = Random::new(seed);
    let mut tally = Tally::default();
    for at in 0..count {
        let damaged = random.one_in(2);
        tally.damaged += usize::from(damaged);
        let (compared, given) = if random.one_in(3) {
            (compare_script(&mut random, program, damaged, &mut tally), compare_scripts::GIVEN)
        } else {
            (compare_map(&mut random, program, damaged, &mut tally), compare_maps::GIVEN)
        };
        compared.map_err(|difference| left(program, given, format!("text {at}: {difference}")))?;
    }
    Ok(tally)
}

fn all() -> Result<(), String> {
    let mut arguments = std::env::args().skip(1);
    let mut number = |default: u64| arguments.next().map_or(Ok(default), |word| word.parse());
    let count = number(5_000).map_err(|_| "COUNT is a number")?;
    let seed = number(1).map_err(|_| "SEED is a number")?;
    let program = Program::find(arguments.next())?;
    println!("texts at the limits: {}", compare_limits(&program)?);
    println!("{count} texts by the generator from {seed}");
    let tally = compare_random(&program, count as usize, seed)?;
    print!("{tally}");
    println!("calls of the program: {}", program.calls());
    fs::remove_dir_all(program.folder()).map_err(|error| error.to_string())?;
    let amiss = tally.amiss();
    if amiss.is_empty() { Ok(()) } else { Err(amiss.join("\n")) }
}

fn main() -> ExitCode {
    match all() {
        Ok(()) => {
            println!("no difference");
            ExitCode::SUCCESS
        }
        Err(why) => {
            println!("{why}\nFAILED");
            ExitCode::FAILURE
        }
    }
}
