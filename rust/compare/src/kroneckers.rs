//! The Kronecker forms whose lists were written, and how often another outcome would have come of a rule that is not document
//! 02's: such a rule would be seen in the comparison.

use crate::counts::{Counts, unmet, write_lines};
use crate::differ::Case;
use crate::kronecker_rules::{DOCUMENT, OTHERS};
use crate::kronecker_search::Extended;
use crate::tree_lists::best_form;
use crate::trees::EXPANSIONS;
use crate::vector_lists::VectorLists;
use model::cost::cost;
use model::trees;
use std::fmt;

const VARIABLES: [&str; 7] = ["0", "1", "2", "3", "4", "5", "6"];

const TOO_MANY: [&str; 3] = ["7, and a good vector", "8, and a good vector", "others"];

const CHOICES: [&str; 2] = ["one", "several"];

const BESIDE: [&str; 4] = [
    "as much as the best polarity's form and the tree's list",
    "as much as the tree's list alone",
    "as much as the form alone",
    "less than the form and more than the tree's list",
];

/// Forms by their variables, their lists, how many choices cost least and what else costs as much; calls with too many variables;
/// variables by their expansion; and the rules that would have had another outcome.
#[derive(Default)]
pub struct Kroneckers {
    variables: [u64; VARIABLES.len()],
    too_many: [u64; TOO_MANY.len()],
    expansions: [u64; EXPANSIONS.len()],
    choices: [u64; CHOICES.len()],
    beside: [u64; BESIDE.len()],
    lists: VectorLists,
    another: [u64; OTHERS.len()],
}

impl Kroneckers {
    /// Adds a call of write kronecker.
    pub fn add(&mut self, case: &Case, answer: &[u64; 8]) {
        match *answer {
            [0, _, cost, _, products, ..] => {
                self.lists.add_list(products, cost);
                self.add_form(case);
            }
            [1, ..] => return self.too_many[too_many(case)] += 1,
            [14, ..] => return self.lists.add_bad(case),
            _ => {}
        }
        self.lists.add_room(case);
        let extended = Extended::of(&case.input);
        let outcome = DOCUMENT.outcome(case, &extended);
        for (count, rule) in self.another.iter_mut().zip(OTHERS) {
            *count += u64::from(rule.outcome(case, &extended) != outcome);
        }
    }

    fn add_form(&mut self, case: &Case) {
        let extended = Extended::of(&case.input);
        let form = DOCUMENT.form(&extended);
        self.variables[case.n as usize] += 1;
        for digit in &form.choice.digits {
            self.expansions[*digit] += 1;
        }
        self.choices[usize::from(DOCUMENT.choices_of_cost(&extended, form.cost) > 1)] += 1;
        let less = form.cost < cost(&best_form(case.n as usize, &case.input));
        let more = form.cost > cost(&trees::list(&case.input));
        self.beside[usize::from(less) + 2 * usize::from(more)] += 1;
    }

    /// What was never met, and the rules that would never have been seen.
    pub fn amiss(&self) -> Vec<String> {
        unmet(&self.counts())
    }

    fn counts(&self) -> Vec<Counts> {
        let rules = OTHERS.map(|rule| rule.name);
        let lists = [
            "Kronecker forms by their products",
            "Kronecker forms by the constant",
            "buffers for Kronecker forms",
            "14 of write kronecker, by what is wrong",
        ];
        let mut counts = vec![
            ("Kronecker forms by their variables", VARIABLES.into_iter().zip(self.variables).collect()),
            ("1 of write kronecker, by the variables", TOO_MANY.into_iter().zip(self.too_many).collect()),
            ("expansions of variables", EXPANSIONS.into_iter().zip(self.expansions).collect()),
            ("choices that cost least", CHOICES.into_iter().zip(self.choices).collect()),
            ("Kronecker forms cost", BESIDE.into_iter().zip(self.beside).collect()),
        ];
        counts.extend(self.lists.counts(lists));
        counts
            .push(("another outcome of write kronecker by other rules", rules.into_iter().zip(self.another).collect()));
        counts
    }
}

/// Which of [`TOO_MANY`] a call has.
fn too_many(case: &Case) -> usize {
    let good = |n| case.n == n && case.input.len() == 1 << n && case.input.iter().all(|&byte| byte < 2);
    if good(7) {
        0
    } else if good(8) {
        1
    } else {
        2
    }
}

impl fmt::Display for Kroneckers {
    fn fmt(&self, f: &mut fmt::Formatter) -> fmt::Result {
        write_lines(f, &self.counts())
    }
}
