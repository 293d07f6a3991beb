//! The wrapper's cubes, products, steps and faults against the model's: same bytes, same text, same numbers.

use crate::random::Random;
use crate::shared_cases::outputs;
use druthmoy::{Cube, Fault, Product, Step};
use model::refusal::ORDERS;
use model::{cube, script, shared};
use std::collections::BTreeSet;

pub fn all(seed: u64) -> Result<(), String> {
    const EACH: usize = 100_000;
    let mut random = Random::new(seed);
    for _ in 0..EACH {
        same_cube(&mut random)?;
        same_product(&mut random)?;
        same_step(&mut random)?;
    }
    same_faults()?;
    println!(
        "{EACH} cubes written out, read and as records of both widths; {EACH} products and {EACH} steps as records"
    );
    Ok(())
}

/// The faults are the numbers that the calls can answer, ascending, and each is found by its number.
fn same_faults() -> Result<(), String> {
    let numbers: BTreeSet<u64> = ORDERS.iter().flat_map(|(_, numbers)| numbers.iter().copied()).collect();
    let found: Vec<Option<Fault>> = numbers.iter().map(|&number| Fault::from_number(number)).collect();
    if found != Fault::ALL.map(Some) || Fault::ALL.iter().any(|fault| !numbers.contains(&fault.number())) {
        return Err(format!("the wrapper has {:?}, the calls answer {numbers:?}", Fault::ALL));
    }
    println!("{} faults by their numbers", numbers.len());
    Ok(())
}

fn same_cube(random: &mut Random) -> Result<(), String> {
    let n = random.below(33);
    let codes: cube::Cube = (0..n).map(|_| random.below(3) as u8).collect();
    let text = cube::written(&codes);
    let read: Cube = text.parse().map_err(|error| format!("{text:?}: {error}"))?;
    let record = read.record();
    let modelled = cube::encoded(&codes);
    if record != modelled || Cube::from_record(record) != read || read.written(n) != text {
        return Err(format!("{text:?}: the wrapper has {read:?}, the model {modelled:?}"));
    }
    // A cube has a narrow record where it has no literal from variable 16 on.
    let narrow = codes.iter().skip(16).all(|&code| code == 2).then(|| cube::encoded(&codes[..n.min(16)].to_vec()));
    if read.narrow_record() != narrow || narrow.is_some_and(|record| Cube::from_narrow_record(record) != read) {
        return Err(format!("{text:?}: the wrapper has {:?}, the model {narrow:?}", read.narrow_record()));
    }
    Ok(())
}

fn same_product(random: &mut Random) -> Result<(), String> {
    let codes: cube::Cube = (0..random.below(33)).map(|_| random.below(3) as u8).collect();
    let word = random.next() as u32;
    let text = cube::written(&codes);
    let product = Product { cube: text.parse().map_err(|error| format!("{text:?}: {error}"))?, outputs: word };
    let modelled = shared::encoded_list(&[(codes, outputs(word))].into_iter().collect());
    if product.record()[..] != modelled[..] || Product::from_record(product.record()) != product {
        return Err(format!("{product:?}: the wrapper has {:?}, the model {modelled:?}", product.record()));
    }
    Ok(())
}

fn same_step(random: &mut Random) -> Result<(), String> {
    let (v, literal) = (random.below(32), random.below(2) as u8);
    let (i, j) = (random.below(65536), random.below(65536));
    let (v_byte, i_word, j_word) = (v as u8, i as u16, j as u16);
    let plain = |step| shared::Step::Plain(step);
    let (named, modelled) = match random.below(6) {
        0 => (Step::Drop { i: i_word, j: j_word }, plain(script::Step::Drop { i, j })),
        1 => (Step::Join { i: i_word, j: j_word }, plain(script::Step::Join { i, j })),
        2 => (Step::Split { v: v_byte, i: i_word }, plain(script::Step::Split { v, i })),
        3 => (Step::Turn { v: v_byte, i: i_word, j: j_word }, plain(script::Step::Turn { v, i, j })),
        4 => (Step::L { v: v_byte, literal }, plain(script::Step::L { v, literal })),
        _ => (Step::Merge { i: i_word, j: j_word }, shared::Step::Merge { i, j }),
    };
    if named.record() != shared::encoded_step(modelled) {
        return Err(format!("{named:?}: {:?} and {:?}", named.record(), shared::encoded_step(modelled)));
    }
    Ok(())
}
