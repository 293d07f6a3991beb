//! Random maps as lines of words: headers in any order, all output characters, sizes up to the limits and one past them.

use crate::draft::{Words, spelled};
use crate::map_reader::MOST_PRODUCTS;
use crate::random::Random;

fn inputs(random: &mut Random) -> usize {
    match random.below(8) {
        0 => 0,
        1 => 32,
        2 => random.between(9, 31),
        _ => random.between(1, 8),
    }
}

fn outputs(random: &mut Random) -> usize {
    match random.below(10) {
        0 => 32,
        1 => random.between(2, 31),
        2 | 3 => random.between(2, 4),
        _ => 1,
    }
}

fn characters(random: &mut Random, from: &str, length: usize) -> String {
    let from: Vec<char> = from.chars().collect();
    (0..length).map(|_| random.pick(&from)).collect()
}

/// Whether a product is in some output; with one output and all kinds of characters most would be in none.
fn carried(random: &mut Random, outputs: usize, kept: bool) -> String {
    let mut carried = characters(random, if kept { "01-~1" } else { "0-~" }, outputs);
    if kept && !carried.contains('1') {
        let at = random.below(outputs);
        carried.replace_range(at..at + 1, "1");
    }
    carried
}

/// The characters as words: literals and outputs, all of it in one, or with blanks anywhere.
fn product(random: &mut Random, inputs: usize, outputs: usize, kept: bool) -> Words {
    let literals = characters(random, random_literals(inputs), inputs);
    let carried = carried(random, outputs, kept);
    match random.below(8) {
        0 => vec![literals + &carried],
        1 => (literals + &carried).chars().map(String::from).collect(),
        2 => {
            let all = literals + &carried;
            let (front, back) = all.split_at(random.between(0, all.len()));
            [front, back].into_iter().filter(|word| !word.is_empty()).map(String::from).collect()
        }
        _ => [literals, carried].into_iter().filter(|word| !word.is_empty()).collect(),
    }
}

/// Over many variables mostly no literal, so that products are not all different.
fn random_literals(inputs: usize) -> &'static str {
    if inputs > 8 { "01----" } else { "01-" }
}

/// For each product whether it is in some output.
fn kept(random: &mut Random) -> Vec<bool> {
    let (some, none) = if random.one_in(60) {
        (MOST_PRODUCTS - 1 + random.pick(&[0, 1, 1, 2, 3]), random.below(4))
    } else if random.one_in(6) {
        (random.below(80), random.below(20))
    } else {
        (random.below(12), random.below(3))
    };
    let mut kept = vec![true; some];
    for _ in 0..none {
        kept.insert(random.between(0, kept.len()), false);
    }
    kept
}

fn padded(random: &mut Random, number: usize) -> String {
    if random.one_in(12) { format!("{number:0width$}", width = random.between(2, 30)) } else { number.to_string() }
}

fn names(random: &mut Random, word: &str, count: usize) -> Words {
    let names = (0..count).map(|name| random.pick(&["a", ".i", "x", "01-", "1"]).to_string() + &name.to_string());
    [word.to_string()].into_iter().chain(names).collect()
}

fn headers(random: &mut Random, inputs: usize, outputs: usize) -> Vec<Words> {
    let mut headers = vec![
        vec![".i".into(), padded(random, inputs)],
        vec![".o".into(), padded(random, outputs)],
        spelled(".type esop"),
    ];
    if random.one_in(4) {
        headers.push(names(random, ".ilb", inputs));
    }
    if random.one_in(4) {
        headers.push(names(random, ".ob", outputs));
    }
    if random.one_in(12) {
        headers.push(spelled(".type esop"));
    }
    for place in 0..headers.len() {
        let other = random.between(place, headers.len() - 1);
        headers.swap(place, other);
    }
    headers
}

/// `.e`, `.end` or nothing, and after it what is not read.
fn ending(random: &mut Random) -> Vec<Words> {
    let after = [".e", ".i 3", "01- 1", "nothing", ".kiss", ".p 7"];
    let mut ending = match random.below(4) {
        0 => return Vec::new(),
        1 => vec![spelled(".end")],
        _ => vec![spelled(".e")],
    };
    while random.one_in(4) {
        ending.push(spelled(random.pick(&after)));
    }
    ending
}

pub fn drawn(random: &mut Random) -> Vec<Words> {
    let (inputs, outputs, kept) = (inputs(random), outputs(random), kept(random));
    let mut lines = headers(random, inputs, outputs);
    let first = lines.len();
    lines.extend(kept.iter().map(|&kept| product(random, inputs, outputs, kept)));
    if random.one_in(2) {
        // mostly before the products, but it may stand anywhere
        let place = if random.one_in(3) { lines.len() } else { first };
        lines.insert(random.between(0, place), vec![".p".into(), padded(random, kept.len())]);
    }
    lines.extend(ending(random));
    lines
}
