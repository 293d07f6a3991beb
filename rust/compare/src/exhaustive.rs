//! Small worlds, whole.

use crate::choices::{Choices, other_polarities};
use crate::differ::{Call, Case, compare, empty};
use model::cube::{Cube, RECORD, encoded_list};
use model::script::{Step, encoded};
use std::collections::BTreeMap;

/// Every function of 4 variables: best polarity against trying all.
pub fn functions_of_four() -> Result<(), String> {
    let mut by_size = [0; 17];
    let mut another = [0; 2];
    for function in 0..1u32 << 16 {
        let input: Vec<u8> = (0..16).map(|a| (function >> a & 1) as u8).collect();
        let others = other_polarities(4, &input);
        let case = Case { input, ..empty(Call::BestPolarity, 4) };
        let answer = compare(&case)?;
        by_size[answer[3] as usize] += 1;
        for (count, other) in another.iter_mut().zip(others) {
            *count += u32::from(other as u64 != answer[2]);
        }
    }
    println!("{} functions; by size of the best form, from 0: {by_size:?}", 1 << 16);
    let [by_products, forgotten] = another;
    println!(
        "another polarity by products alone {by_products} times, with products forgotten on a tie {forgotten} times"
    );
    if another.contains(&0) { Err("the functions do not tell the rules apart".into()) } else { Ok(()) }
}

/// Every list of up to 2 cubes over 2 variables with every script of up to 2 steps, run and settled, in buffers that
/// just hold the list and in longer ones.
pub fn short_lists_and_scripts() -> Result<(), String> {
    let (lists, scripts) = (lists(), scripts());
    let mut met = [0u64; 21];
    let mut choices = Choices::default();
    for list in &lists {
        let input = encoded_list(list);
        for script in &scripts {
            for more in [0, RECORD + 7] {
                let work = vec![0x5a; input.len() + more];
                let run = Case { input: input.clone(), script: script.clone(), work, ..empty(Call::Run, 2) };
                let settle = Case { call: Call::Settle, out: vec![0xc3; input.len() + more], ..run.clone() };
                met[compare(&run)?[0] as usize] += 1;
                let answer = compare(&settle)?;
                met[answer[0] as usize] += 1;
                if answer[0] == 0 {
                    choices.add(&settle, &answer);
                }
            }
        }
    }
    println!(
        "{} lists, {} scripts of {} well-formed and {} damaged steps, 2 buffer lengths, run and settled: {} calls",
        lists.len(),
        scripts.len(),
        steps().len(),
        damaged_steps().len(),
        met.iter().sum::<u64>()
    );
    let refused: Vec<String> =
        (1..met.len()).filter(|&number| met[number] > 0).map(|number| format!("{number}: {}", met[number])).collect();
    println!("accepted {}; refused {}", met[0], refused.join(", "));
    print!("{choices}");
    Ok(())
}

/// Every drop, join and turn on every list of two cubes over few variables, at all places up to the first that is
/// outside, run and settled. How often each number is answered with each number of differing variables is also counted
/// without any step.
pub fn steps_on_two_cubes() -> Result<(), String> {
    for n in 0..4 {
        let variables: Vec<usize> = (0..n).collect();
        two_cubes_over(n, &variables, &variables)?;
    }
    two_cubes_over(32, &[0, 16, 31], &[0, 15, 16, 31])
}

/// Two cubes with literals at some of n variables, and turns at some of them.
fn two_cubes_over(n: usize, variables: &[usize], turns: &[usize]) -> Result<(), String> {
    let cubes = cubes_over(n, variables);
    let mut met: BTreeMap<[u64; 2], u64> = BTreeMap::new();
    for (a, b) in cubes.iter().flat_map(|a| cubes.iter().map(move |b| (a, b))) {
        let input = encoded_list(&[a.clone(), b.clone()]);
        for (i, j) in (0..9).map(|k| (k / 3, k % 3)) {
            let two = [Step::Drop { i, j }, Step::Join { i, j }];
            for step in two.into_iter().chain(turns.iter().map(|&v| Step::Turn { v, i, j })) {
                let run = Case {
                    input: input.clone(),
                    script: encoded(step).to_vec(),
                    work: vec![0x5a; input.len() + RECORD],
                    ..empty(Call::Run, n as u64)
                };
                let settle = Case { call: Call::Settle, out: vec![0xc3; input.len()], ..run.clone() };
                for case in [run, settle] {
                    let [number, _, third, ..] = compare(&case)?;
                    *met.entry([number, if number == 0 { 0 } else { third }]).or_default() += 1;
                }
            }
        }
    }
    let expected = expected_of_two_cubes(variables.len() as u32, turns.len() as u64);
    let calls: u64 = met.values().sum();
    let answers: Vec<String> =
        met.iter().map(|([number, third], count)| format!("{number} {third}: {count}")).collect();
    println!(
        "over {} of {n} variables, {calls} calls; number and third answer: {}",
        variables.len(),
        answers.join(", ")
    );
    if met == expected { Ok(()) } else { Err(format!("{met:?}, and not {expected:?}")) }
}

/// Of the 9 pairs of places 5 have one outside, 2 are of one place with itself, and 2 are of both cubes. Of the pairs of
/// cubes over m variables, 3^m 2^d (m over d) differ in d variables.
fn expected_of_two_cubes(m: u32, turns: u64) -> BTreeMap<[u64; 2], u64> {
    let mut expected: BTreeMap<[u64; 2], u64> = BTreeMap::new();
    let mut add = |number, third, count: u64| {
        if count > 0 {
            *expected.entry([number, third]).or_default() += 2 * count;
        }
    };
    let steps = 2 + turns;
    add(10, 0, 5 * steps * 9u64.pow(m));
    add(11, 0, 2 * steps * 9u64.pow(m));
    let mut chosen = 1;
    for d in 0..=m {
        let pairs = 2 * 3u64.pow(m) * 2u64.pow(d) * chosen;
        chosen = chosen * u64::from(m - d) / u64::from(d + 1);
        let third = u64::from(d);
        match d {
            0 => add(0, 0, pairs),
            _ => add(16, third, pairs),
        }
        match d {
            1 => add(0, 0, pairs),
            _ => add(17, third, pairs),
        }
        match d {
            2 => {
                add(0, 0, 2 * pairs);
                add(19, third, (turns - 2) * pairs);
            }
            _ => add(18, third, turns * pairs),
        }
    }
    expected
}

/// All cubes over n variables with literals at these alone.
pub fn cubes_over(n: usize, variables: &[usize]) -> Vec<Cube> {
    let mut cubes = vec![vec![2; n]];
    for &v in variables {
        cubes = (0..3).flat_map(|code| cubes.iter().map(move |cube| with_code(cube, v, code))).collect();
    }
    cubes
}

fn with_code(cube: &Cube, v: usize, code: u8) -> Cube {
    let mut cube = cube.clone();
    cube[v] = code;
    cube
}

/// All lists of up to 2 cubes over 2 variables.
pub fn lists() -> Vec<Vec<Cube>> {
    let cubes = cubes_over(2, &[0, 1]);
    let pairs = cubes.iter().flat_map(|a| cubes.iter().map(move |b| vec![a.clone(), b.clone()]));
    let singles = cubes.iter().map(|cube| vec![cube.clone()]);
    [vec![]].into_iter().chain(singles).chain(pairs).collect()
}

/// All steps over 2 variables and places 0 to 3: before a second step the count is at most 3.
fn steps() -> Vec<[u8; 8]> {
    let mut steps = Vec::new();
    for i in 0..4 {
        for j in 0..4 {
            steps.extend([Step::Drop { i, j }, Step::Join { i, j }]);
            steps.extend((0..2).map(|v| Step::Turn { v, i, j }));
        }
        steps.extend((0..2).map(|v| Step::Split { v, i }));
    }
    steps.extend((0..4).map(|k| Step::L { v: k / 2, literal: k as u8 % 2 }));
    steps.into_iter().map(encoded).collect()
}

/// All scripts of up to 2 steps, well-formed and damaged.
pub fn scripts() -> Vec<Vec<u8>> {
    let all = [steps(), damaged_steps()].concat();
    let mut scripts: Vec<Vec<u8>> = vec![vec![]];
    scripts.extend(all.iter().map(|step| step.to_vec()));
    scripts.extend(all.iter().flat_map(|first| all.iter().map(move |second| [*first, *second].concat())));
    scripts
}

/// Unknown operations; each operation with each field at a value that it must not have; places past the first byte.
pub fn damaged_steps() -> Vec<[u8; 8]> {
    vec![
        [0, 0, 0, 0, 0, 0, 0, 0],
        [6, 0, 0, 0, 1, 0, 0, 0],
        [255, 0, 0, 0, 1, 0, 0, 0],
        [1, 1, 0, 0, 1, 0, 0, 0],
        [1, 0, 0, 0, 1, 0, 1, 0],
        [1, 0, 0, 0, 1, 0, 0, 1],
        [2, 1, 0, 0, 1, 0, 0, 0],
        [2, 0, 0, 0, 1, 0, 1, 0],
        [2, 0, 0, 0, 1, 0, 0, 128],
        [3, 2, 0, 0, 0, 0, 0, 0],
        [3, 0, 0, 0, 1, 0, 0, 0],
        [3, 0, 0, 0, 0, 1, 0, 0],
        [3, 0, 0, 0, 0, 0, 1, 0],
        [4, 2, 0, 0, 1, 0, 0, 0],
        [4, 255, 0, 0, 1, 0, 0, 0],
        [4, 0, 0, 0, 1, 0, 1, 0],
        [4, 0, 0, 0, 1, 0, 0, 1],
        [5, 2, 0, 0, 0, 0, 0, 0],
        [5, 0, 0, 0, 0, 0, 2, 0],
        [5, 0, 1, 0, 0, 0, 0, 0],
        [5, 0, 0, 0, 0, 1, 0, 0],
        [5, 0, 0, 0, 0, 0, 0, 1],
        [1, 0, 0, 1, 1, 0, 0, 0],
        [2, 0, 0, 0, 1, 1, 0, 0],
        [3, 0, 0, 1, 0, 0, 0, 0],
    ]
}
