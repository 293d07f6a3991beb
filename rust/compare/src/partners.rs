//! Document 02, Eight: "Partners for a join differ by at most one in their number of literals", and equal cubes not at all.

use crate::callers::by_words;
use crate::differ::{Call, Case, empty};
use crate::exhaustive::cubes_over;
use crate::random::Random;
use model::cube::{Cube, PLACE, RECORD, encoded_list};
use model::script::{Step, encoded};
use std::fmt;

pub fn all(calls: usize, seed: u64) -> Result<(), String> {
    for n in 0..4 {
        all_over(n)?;
    }
    by_chance(calls, seed)
}

/// How many pairs of cubes are equal, can be joined with as many literals, and with one more or fewer.
#[derive(Default, PartialEq)]
struct Pairs {
    equal: u64,
    level: u64,
    one_apart: u64,
}

impl fmt::Display for Pairs {
    fn fmt(&self, f: &mut fmt::Formatter) -> fmt::Result {
        let Pairs { equal, level, one_apart } = self;
        write!(f, "{equal} equal; {level} that can be joined with as many literals, {one_apart} with one more or fewer")
    }
}

impl Pairs {
    /// Adds two cubes; an error is a pair that breaks the law.
    fn add(&mut self, a: &Cube, b: &Cube) -> Result<(), String> {
        let input = encoded_list(&[a.clone(), b.clone()]);
        let does = |step| {
            let work = vec![0x5a; 2 * RECORD];
            let run =
                Case { input: input.clone(), script: encoded(step).to_vec(), work, ..empty(Call::Run, a.len() as u64) };
            by_words(&run).map(|after| after.answer[0] == 0)
        };
        let (drops, joins) = (does(Step::Drop { i: 0, j: 1 })?, does(Step::Join { i: 0, j: 1 })?);
        let built =
            by_words(&Case { input: input.clone(), out: vec![0xc3; 2 * PLACE], ..empty(Call::Index, a.len() as u64) })?;
        // The group of an entry is the last that starts there or in front of it.
        let group = |entry: u64| built.starts.iter().filter(|&&start| start <= entry).count();
        match (drops, joins, group(1) - group(0)) {
            (true, false, 0) => self.equal += 1,
            (false, true, 0) => self.level += 1,
            (false, true, 1) => self.one_apart += 1,
            (false, false, _) => {}
            _ => return Err(format!("{a:?} and {b:?}: drop {drops}, join {joins}, starts {:?}", built.starts)),
        }
        Ok(())
    }
}

/// Every two cubes over n variables.
fn all_over(n: usize) -> Result<(), String> {
    let variables: Vec<usize> = (0..n).collect();
    let cubes = cubes_over(n, &variables);
    let mut pairs = Pairs::default();
    for (a, b) in cubes.iter().flat_map(|a| cubes.iter().map(move |b| (a, b))) {
        pairs.add(a, b)?;
    }
    println!("pairs of cubes over n = {n}: {pairs}");
    // Partners have one of 6 pairs of codes at one variable, of which 2 are of two literals, and the same code at the others.
    let at_one = if n == 0 { 0 } else { n as u64 * 3u64.pow(n as u32 - 1) };
    let expected = Pairs { equal: 3u64.pow(n as u32), level: 2 * at_one, one_apart: 4 * at_one };
    if pairs == expected { Ok(()) } else { Err(format!("not {expected}")) }
}

/// Cubes over 32 variables, and others that differ from them in none, one or two.
fn by_chance(calls: usize, seed: u64) -> Result<(), String> {
    let mut random = Random::new(seed.wrapping_mul(47));
    let mut pairs = Pairs::default();
    for _ in 0..calls {
        let cube: Cube = (0..32).map(|_| random.below(3) as u8).collect();
        let mut other = cube.clone();
        for _ in 0..random.below(3) {
            let v = if random.one_in(4) { 31 } else { random.below(32) };
            other[v] = random.below(3) as u8;
        }
        pairs.add(&cube, &other)?;
    }
    println!("{calls} random pairs over n = 32: {pairs}");
    let met = pairs.equal > 0 && pairs.level > 0 && pairs.one_apart > 0;
    if met { Ok(()) } else { Err("not each kind of pair was met".into()) }
}
