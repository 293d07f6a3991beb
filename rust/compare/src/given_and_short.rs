//! Document 02, Eleven: scripts run and settled as they are given, and compacted for the list that they are run on.

use crate::cases::undoing_case;
use crate::counts::{Counts, unmet, write_lines};
use crate::differ::{After, Call, Case, compared};
use crate::random::Random;
use crate::replays::expect;
use model::cube::RECORD;
use model::refusal::ORDERS;
use model::script::STEP;
use std::fmt;

pub fn all(calls: usize, seed: u64) -> Result<(), String> {
    for call in [Call::Run, Call::Settle] {
        let mut runs = Runs::default();
        let mut random = Random::new(seed.wrapping_mul(43).wrapping_add(call as u64));
        for number in 0..calls {
            let case = undoing_case(&mut random, call);
            beside_short(&mut runs, &case)
                .map_err(|difference| format!("call {number} from seed {seed}: {difference}"))?;
        }
        print!("{}:\n{runs}", ORDERS[call as usize].0);
        let amiss = unmet(&runs.counts());
        if !amiss.is_empty() {
            return Err(amiss.join("\n"));
        }
    }
    Ok(())
}

/// The call with its script compacted, in buffers that hold other bytes.
fn short(case: &Case) -> Result<Case, String> {
    let number = (case.input.len() / RECORD) as u64;
    let out = vec![0xc3; case.script.len()];
    let compacted = compared(&Case { call: Call::Compact, input: vec![], number, work: vec![], out, ..case.clone() })?;
    let [0, _, steps, ..] = compacted.answer else {
        return Err(format!("a script that is not compacted\n{case}\n{compacted}"));
    };
    let [work, out] = [&case.work, &case.out].map(|bytes| bytes.iter().map(|byte| !byte).collect());
    Ok(Case { script: compacted.out[..STEP * steps as usize].to_vec(), work, out, ..case.clone() })
}

/// Makes the call and the one with its script compacted, each compared with the model: "where the given script is not refused,
/// the short one is not refused either, and ends with the same list, with a peak no higher".
fn beside_short(runs: &mut Runs, case: &Case) -> Result<(), String> {
    let short = short(case)?;
    let (given, left) = (compared(case)?, compared(&short)?);
    if given.answer[0] == 0 {
        let peak = left.answer[3];
        let mut answer = given.answer;
        answer[3] = peak;
        let same = left.answer == answer && left.work == given.work && left.out == given.out;
        expect(same && peak <= given.answer[3], "another outcome with the short script", case, &left)?;
    }
    runs.add(case, &short, &given, &left);
    Ok(())
}

const OUTCOMES: [&str; 4] =
    ["neither refused", "the given one alone", "both, by the same number", "both, by another number"];

const REMOVED: [&str; 4] = ["none", "one", "two", "three or more"];

const PEAKS: [&str; 2] = ["the same", "lower"];

/// What a turn or a split that is removed can be refused by.
const ALONE: [(u64, &str); 5] = [(10, "10"), (11, "11"), (18, "18"), (19, "19"), (13, "13")];

/// Pairs of calls by which of them is refused; those that are not by the pairs removed and by their peaks, and those of which
/// the given one alone is by its number.
#[derive(Default)]
struct Runs {
    outcomes: [u64; OUTCOMES.len()],
    removed: [u64; REMOVED.len()],
    peaks: [u64; PEAKS.len()],
    alone: [u64; ALONE.len()],
}

impl Runs {
    fn add(&mut self, case: &Case, short: &Case, given: &After, left: &After) {
        let outcome = match (given.answer[0], left.answer[0]) {
            (0, _) => 0,
            (_, 0) => 1,
            (a, b) if a == b => 2,
            _ => 3,
        };
        self.outcomes[outcome] += 1;
        match outcome {
            0 => {
                let pairs = (case.script.len() - short.script.len()) / (2 * STEP);
                self.removed[pairs.min(3)] += 1;
                self.peaks[usize::from(left.answer[3] < given.answer[3])] += 1;
            }
            1 => {
                for (count, (number, _)) in self.alone.iter_mut().zip(ALONE) {
                    *count += u64::from(number == given.answer[0]);
                }
            }
            _ => {}
        }
    }

    fn counts(&self) -> [Counts; 4] {
        let alone = ALONE.map(|(_, name)| name);
        [
            ("scripts as given and compacted, refused", OUTCOMES.into_iter().zip(self.outcomes).collect()),
            ("where neither is, pairs removed", REMOVED.into_iter().zip(self.removed).collect()),
            ("and the peak with the short script", PEAKS.into_iter().zip(self.peaks).collect()),
            ("where the given one alone is, by", alone.into_iter().zip(self.alone).collect()),
        ]
    }
}

impl fmt::Display for Runs {
    fn fmt(&self, f: &mut fmt::Formatter) -> fmt::Result {
        write_lines(f, &self.counts())
    }
}
