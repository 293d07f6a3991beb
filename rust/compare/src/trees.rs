//! The trees whose lists were written, and how often another outcome would have come of a rule that is not document 02's: such
//! a rule would be seen in the comparison.

use crate::counts::{Counts, unmet, write_lines};
use crate::differ::Case;
use crate::tree_rules::{DOCUMENT, OTHERS};
use crate::vector_lists::VectorLists;
use model::trees::{Tree, cheapest};
use std::fmt;

const VARIABLES: [&str; 9] = ["0", "1", "2", "3", "4", "5", "6", "7", "8"];

pub const EXPANSIONS: [&str; 3] = ["Shannon", "positive Davio", "negative Davio"];

/// Trees by their variables and their lists, nodes by their expansion, and the rules that would have had another outcome.
#[derive(Default)]
pub struct Trees {
    variables: [u64; VARIABLES.len()],
    lists: VectorLists,
    expansions: [u64; EXPANSIONS.len()],
    another: [u64; OTHERS.len()],
}

impl Trees {
    /// Adds a call of write tree, if it came as far as its vector.
    pub fn add(&mut self, case: &Case, answer: &[u64; 8]) {
        match *answer {
            [0, _, products, cost, ..] => {
                self.variables[case.n as usize] += 1;
                self.lists.add_list(products, cost);
                self.add_nodes(&cheapest(&case.input, false));
            }
            [14, ..] => return self.lists.add_bad(case),
            [5, ..] => {}
            _ => return,
        }
        self.lists.add_room(case);
        let outcome = DOCUMENT.outcome(case);
        for (count, rule) in self.another.iter_mut().zip(OTHERS) {
            *count += u64::from(rule.outcome(case) != outcome);
        }
    }

    fn add_nodes(&mut self, tree: &Tree) {
        if let Tree::Node(by, branches) = tree {
            self.expansions[*by as usize] += 1;
            branches.iter().for_each(|branch| self.add_nodes(branch));
        }
    }

    /// What was never met, and the rules that would never have been seen.
    pub fn amiss(&self) -> Vec<String> {
        unmet(&self.counts())
    }

    fn counts(&self) -> Vec<Counts> {
        let rules = OTHERS.map(|rule| rule.name);
        let lists = [
            "trees by their products",
            "trees by the constant",
            "buffers for trees",
            "14 of write tree, by what is wrong",
        ];
        let mut counts = vec![
            ("trees by their variables", VARIABLES.into_iter().zip(self.variables).collect()),
            ("nodes of trees", EXPANSIONS.into_iter().zip(self.expansions).collect()),
        ];
        counts.extend(self.lists.counts(lists));
        counts.push(("another outcome of write tree by other rules", rules.into_iter().zip(self.another).collect()));
        counts
    }
}

impl fmt::Display for Trees {
    fn fmt(&self, f: &mut fmt::Formatter) -> fmt::Result {
        write_lines(f, &self.counts())
    }
}
