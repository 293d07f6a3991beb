//! Document 02, Twelve: scripts with no split, each with its L steps and without them; and how often another rule, or a
//! split, would have been seen.

use crate::cases::{case, unsplit_case};
use crate::counts::{Counts, unmet, write_lines};
use crate::differ::{After, Call, Case, compared, empty};
use crate::exhaustive::lists;
use crate::random::Random;
use model::cube::{Cube, RECORD, encoded_list};
use model::script::{STEP, Step, decoded, encoded, run, step, undone};
use std::fmt;

const SPLIT: u8 = 3;
const L: u8 = 5;

pub fn all(calls: usize, seed: u64) -> Result<(), String> {
    let mut pairs = Pairs::default();
    for call in [Call::Run, Call::Settle] {
        let mut random = Random::new(seed.wrapping_mul(37).wrapping_add(call as u64));
        for number in 0..calls {
            let case = unsplit_case(&mut random, call);
            let given =
                beside_plain(&case).map_err(|difference| format!("call {number} from seed {seed}: {difference}"))?;
            pairs.add(&case, &given)?;
        }
    }
    with_splits(&mut pairs, calls, seed)?;
    print!("{pairs}");
    let amiss = unmet(&pairs.counts());
    if !amiss.is_empty() {
        return Err(amiss.join("\n"));
    }
    short_scripts()
}

fn has(script: &[u8], op: u8) -> bool {
    script.chunks(STEP).any(|step| step[0] == op)
}

/// The call without the L steps of its script, in a work buffer that holds other bytes.
fn plain(case: &Case) -> Case {
    let left: Vec<&[u8]> = case.script.chunks(STEP).filter(|step| step[0] != L).collect();
    Case { script: left.concat(), work: case.work.iter().map(|byte| !byte).collect(), ..case.clone() }
}

/// Makes the call and the one without its L steps, each compared with the model: "refused exactly when the first one was,
/// with the same number, at the step that corresponds; else it ends with the same records in the same places". Answers what
/// the first one left.
fn beside_plain(case: &Case) -> Result<After, String> {
    if has(&case.script, SPLIT) {
        return Err(format!("a split\n{case}"));
    }
    let given = compared(case)?;
    let left = compared(&plain(case))?;
    let mut answer = given.answer;
    if answer[0] != 0 {
        let before = &case.script[..STEP * answer[1] as usize];
        answer[1] = before.chunks(STEP).filter(|step| step[0] != L).count() as u64;
    }
    let same = left.answer == answer && left.work == given.work && left.out == given.out;
    if same {
        Ok(given)
    } else {
        Err(format!("another outcome without the L steps\n{case}\n{given}\nwithout:\n{left}"))
    }
}

/// Random calls of run whose scripts have a split and an L step: without the L steps some have another outcome.
fn with_splits(pairs: &mut Pairs, calls: usize, seed: u64) -> Result<(), String> {
    let mut random = Random::new(seed.wrapping_mul(41));
    for number in 0..calls {
        let case = case(&mut random, Call::Run);
        let made =
            |case: &Case| compared(case).map_err(|difference| format!("call {number} from seed {seed}: {difference}"));
        let given = made(&case)?;
        if has(&case.script, SPLIT) && has(&case.script, L) && !matches!(given.answer[0], 1..=9) {
            let left = made(&plain(&case))?;
            let kind = match (given.answer[0], left.answer[0]) {
                (0, 0) if given.work == left.work => 0,
                (0, 0) => 1,
                (0, _) | (_, 0) => 2,
                (a, b) if a == b => 3,
                _ => 4,
            };
            pairs.split[kind] += 1;
        }
    }
    Ok(())
}

/// Every list of up to 2 cubes over 2 variables, run with every script of up to 3 steps, none of them a split and at least
/// one an L step; the other steps are at places 0 and 1 in both orders, at one place, and past the end.
fn short_scripts() -> Result<(), String> {
    let places = [(0, 1), (1, 0), (0, 0), (0, 2)];
    let mut steps: Vec<[u8; STEP]> = (0..4).map(|k| encoded(Step::L { v: k / 2, literal: k as u8 % 2 })).collect();
    for (i, j) in places {
        let turns = (0..2).map(|v| Step::Turn { v, i, j });
        steps.extend([Step::Drop { i, j }, Step::Join { i, j }].into_iter().chain(turns).map(encoded));
    }
    let mut scripts: Vec<Vec<u8>> = vec![vec![]];
    let mut last = scripts.clone();
    for _ in 0..3 {
        last = last.iter().flat_map(|script| steps.iter().map(move |step| [&script[..], step].concat())).collect();
        scripts.extend(last.clone());
    }
    scripts.retain(|script| has(script, L));
    let lists = lists();
    let (mut calls, mut accepted) = (0u64, 0u64);
    for input in lists.iter().map(|list| encoded_list(list)) {
        for script in &scripts {
            let work = vec![0x5a; input.len() + RECORD];
            let (input, script) = (input.clone(), script.clone());
            let case = Case { input, script, work, ..empty(Call::Run, 2) };
            calls += 1;
            accepted += u64::from(beside_plain(&case)?.answer[0] == 0);
        }
    }
    println!(
        "{} short lists, {} short scripts, {calls} pairs of calls, {accepted} accepted",
        lists.len(),
        scripts.len()
    );
    // Of 20 steps 4 are L steps.
    let expected = (1 + 9 + 81) * (20 + 400 + 8000 - 16 - 256 - 4096);
    if calls == expected { Ok(()) } else { Err(format!("not {expected} pairs")) }
}

const OUTCOMES: [(u64, &str); 7] =
    [(0, "accepted"), (10, "refused by 10"), (11, "11"), (16, "16"), (17, "17"), (18, "18"), (19, "19")];

const NUMBERS: [&str; 4] = ["none", "one", "two", "three or more"];

const OTHERS: [&str; 4] = [
    "refused at the same number",
    "L steps not undone",
    "undone first one first",
    "the first L step not done, but undone",
];

const SPLIT_OUTCOMES: [&str; 5] = [
    "the same list",
    "another list",
    "refused where it was accepted, or the other way",
    "refused by the same number",
    "refused by another number",
];

/// Pairs of calls by their outcome and by the L steps of the first; the rules that would have had another outcome; and the
/// outcomes of scripts with a split.
#[derive(Default)]
struct Pairs {
    outcomes: [u64; OUTCOMES.len()],
    numbers: [u64; NUMBERS.len()],
    another: [u64; OTHERS.len()],
    split: [u64; SPLIT_OUTCOMES.len()],
}

impl Pairs {
    fn add(&mut self, case: &Case, given: &After) -> Result<(), String> {
        let [number, place, ..] = given.answer;
        let Some(outcome) = OUTCOMES.iter().position(|(other, _)| *other == number) else {
            return Err(format!("refused by {number}\n{case}"));
        };
        self.outcomes[outcome] += 1;
        let is_l = |step: &&[u8]| step[0] == L;
        self.numbers[case.script.chunks(STEP).filter(is_l).count().min(3)] += 1;
        if number == 0 {
            for (count, other) in self.another[1..].iter_mut().zip(others(case)) {
                *count += u64::from(other);
            }
        } else {
            self.another[0] += u64::from(has(&case.script[..STEP * place as usize], L));
        }
        Ok(())
    }

    fn counts(&self) -> [Counts; 4] {
        [
            (
                "scripts without a split, with and without their L steps",
                OUTCOMES.map(|(_, name)| name).into_iter().zip(self.outcomes).collect(),
            ),
            ("their L steps", NUMBERS.into_iter().zip(self.numbers).collect()),
            ("another outcome by other rules", OTHERS.into_iter().zip(self.another).collect()),
            ("scripts with a split, without their L steps", SPLIT_OUTCOMES.into_iter().zip(self.split).collect()),
        ]
    }
}

/// Whether an accepted script would have ended in another list with its L steps not undone, undone first one first, and with
/// the first of them not done but undone.
fn others(case: &Case) -> [bool; 3] {
    let (n, given) = (case.n as usize, case.cubes());
    let steps: Vec<Step> = case.script.chunks(STEP).filter_map(|bytes| decoded(n, bytes)).collect();
    let result = run(&given, &steps, usize::MAX).expect("a script that was not refused").list;
    let last = done(&given, &steps);
    let backwards: Vec<Step> = steps.iter().rev().copied().collect();
    let first = steps.iter().position(|step| matches!(step, Step::L { .. }));
    let skipped = first.map(|first| {
        let others: Vec<Step> = [&steps[..first], &steps[first + 1..]].concat();
        undone(done(&given, &others), &steps)
    });
    [last != result, undone(last.clone(), &backwards) != result, skipped.is_some_and(|list| list != result)]
}

/// The list after the steps, with nothing undone.
fn done(given: &[Cube], steps: &[Step]) -> Vec<Cube> {
    let mut list = given.to_vec();
    for &each in steps {
        step(&mut list, each, usize::MAX, 0).expect("a script that was not refused");
    }
    list
}

impl fmt::Display for Pairs {
    fn fmt(&self, f: &mut fmt::Formatter) -> fmt::Result {
        write_lines(f, &self.counts())
    }
}
