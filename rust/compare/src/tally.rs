//! How often each call answered each refusal number, and what the accepted scripts did.

use crate::choices::Choices;
use crate::compactions::Compactions;
use crate::differ::{After, Call, Case};
use crate::easy_scripts::EasyScripts;
use crate::groups::Groups;
use crate::indexed_runs::IndexedRuns;
use crate::indexes::Indexes;
use crate::kroneckers::Kroneckers;
use crate::labels::Labels;
use crate::maps::Maps;
use crate::refused_steps::RefusedSteps;
use crate::shared_lists::SharedLists;
use crate::shared_runs::SharedRuns;
use crate::together::{self, Together};
use crate::trees::Trees;
use model::cube::RECORD;
use model::refusal::ORDERS;
use model::shared::SHARED_RECORD;
use std::collections::BTreeSet;
use std::fmt;

#[derive(Default)]
pub struct Tally {
    /// By call, then by refusal number; 0 counts the accepted calls.
    answers: [[u64; 27]; ORDERS.len()],
    /// Steps of accepted runs by operation.
    steps: [u64; 7],
    refused_steps: RefusedSteps,
    choices: Choices,
    labels: Labels,
    trees: Trees,
    kroneckers: Kroneckers,
    easy_scripts: EasyScripts,
    compactions: Compactions,
    indexes: Indexes,
    groups: Groups,
    indexed_runs: IndexedRuns,
    shared_lists: SharedLists,
    shared_runs: SharedRuns,
    maps: Maps,
    together: Together,
    /// Accepted lists of 32 variables with a literal at the last of them.
    with_the_last_variable: u64,
    longest_list: usize,
    longest_script: usize,
    highest_peak: u64,
}

impl Tally {
    pub fn add(&mut self, case: &Case, after: &After) {
        let answer = &after.answer;
        let number = answer[0] as usize;
        self.answers[case.call as usize][number] += 1;
        let record = if case.call.is_shared() { SHARED_RECORD } else { RECORD };
        if number == 0 && case.n == 32 && case.input.chunks(record).any(|record| record[3] >= 0x80) {
            self.with_the_last_variable += 1;
        }
        match case.call {
            Call::Reasons => self.labels.add(case, answer),
            Call::WriteTree => self.trees.add(case, answer),
            Call::WriteKronecker => self.kroneckers.add(case, answer),
            Call::WriteScript => self.easy_scripts.add(case, answer),
            Call::Compact => self.compactions.add(case, answer),
            Call::Index => self.indexes.add(case, answer),
            Call::Group => self.groups.add(case, answer),
            Call::RunIndexed => self.indexed_runs.add(case, answer),
            Call::SharedCheck | Call::SharedValue => self.shared_lists.add(case, answer),
            Call::SharedRun | Call::SharedSettle => self.shared_runs.add(case, answer),
            Call::Slot | Call::SettleMap | Call::MapReasons => self.maps.add(case, after),
            _ => {}
        }
        if together::CALLS.contains(&case.call) {
            self.together.add(case, answer);
        }
        if number > 0 {
            return self.refused_steps.add(case, answer);
        }
        match case.call {
            Call::Run | Call::RunIndexed | Call::SharedRun | Call::SharedSettle => {
                self.add_script(case, answer, record)
            }
            Call::Settle => {
                self.add_script(case, answer, record);
                self.choices.add(case, answer);
            }
            _ => {}
        }
    }

    /// Adds an accepted script, and its list of records with so many bytes.
    fn add_script(&mut self, case: &Case, answer: &[u64; 8], record: usize) {
        for step in case.script.chunks(8) {
            self.steps[step[0] as usize] += 1;
        }
        self.longest_list = self.longest_list.max(case.input.len() / record);
        self.longest_script = self.longest_script.max(case.script.len() / 8);
        self.highest_peak = self.highest_peak.max(answer[3]);
    }

    /// The refusals that the documents give a call and that were not met, and those met that they do not give; and what
    /// is amiss with refused steps, with choices, with labels, with trees and Kronecker forms, with easy scripts and with compacted ones,
    /// with indexes, groups and runs with an index, with shared lists and scripts on them, and with maps of several lists.
    pub fn amiss(&self) -> Vec<String> {
        let mut amiss = Vec::new();
        for ((name, numbers), answers) in ORDERS.iter().zip(&self.answers) {
            for number in 0..answers.len() as u64 {
                let given = number == 0 || numbers.contains(&number);
                if given != (answers[number as usize] > 0) {
                    amiss.push(format!("{name}: refusal {number} met {} times", answers[number as usize]));
                }
            }
        }
        if self.with_the_last_variable == 0 {
            amiss.push("no accepted list has a literal at variable 31".into());
        }
        amiss.extend(self.refused_steps.amiss());
        amiss.extend(self.choices.amiss());
        amiss.extend(self.labels.amiss());
        amiss.extend(self.trees.amiss());
        amiss.extend(self.kroneckers.amiss());
        amiss.extend(self.easy_scripts.amiss());
        amiss.extend(self.compactions.amiss());
        amiss.extend(self.indexes.amiss());
        amiss.extend(self.groups.amiss());
        amiss.extend(self.indexed_runs.amiss());
        amiss.extend(self.shared_lists.amiss());
        amiss.extend(self.shared_runs.amiss());
        amiss.extend(self.maps.amiss());
        amiss.extend(self.together.amiss());
        amiss
    }

    /// The answers of each call.
    fn write_table(&self, f: &mut fmt::Formatter) -> fmt::Result {
        let all: BTreeSet<u64> = ORDERS.iter().flat_map(|(_, numbers)| numbers.iter().copied()).collect();
        write!(f, "{:16} {:>8}", "refusal", "accepted")?;
        for number in &all {
            write!(f, "{number:>7}")?;
        }
        writeln!(f, "{:>9}", "calls")?;
        for ((name, numbers), answers) in ORDERS.iter().zip(&self.answers) {
            write!(f, "{name:16} {:>8}", answers[0])?;
            for number in &all {
                if numbers.contains(number) {
                    write!(f, "{:>7}", answers[*number as usize])?;
                } else {
                    write!(f, "{:>7}", "-")?;
                }
            }
            writeln!(f, "{:>9}", answers.iter().sum::<u64>())?;
        }
        Ok(())
    }
}

impl fmt::Display for Tally {
    fn fmt(&self, f: &mut fmt::Formatter) -> fmt::Result {
        self.write_table(f)?;
        let [_, drops, joins, splits, turns, ls, merges] = self.steps;
        writeln!(
            f,
            "steps of accepted scripts: {drops} drops, {joins} joins, {splits} splits, {turns} turns, {ls} L, {merges} merges"
        )?;
        write!(f, "{}", self.refused_steps)?;
        write!(f, "{}", self.choices)?;
        write!(f, "{}", self.labels)?;
        write!(f, "{}", self.trees)?;
        write!(f, "{}", self.kroneckers)?;
        write!(f, "{}", self.easy_scripts)?;
        write!(f, "{}", self.compactions)?;
        write!(f, "{}", self.indexes)?;
        write!(f, "{}", self.groups)?;
        write!(f, "{}", self.indexed_runs)?;
        write!(f, "{}", self.shared_lists)?;
        write!(f, "{}", self.shared_runs)?;
        write!(f, "{}", self.maps)?;
        write!(f, "{}", self.together)?;
        writeln!(f, "accepted lists with a literal at variable 31: {}", self.with_the_last_variable)?;
        write!(
            f,
            "longest accepted list: {} records, longest accepted script: {} steps, highest peak: {}",
            self.longest_list, self.longest_script, self.highest_peak
        )
    }
}
