//! What was burned, and how often another list, or another polarity, would have been chosen by a rule that is not
//! document 02's: such a rule would be seen in the comparison.

use crate::counts::{Counts, unmet, write_lines};
use crate::differ::{Call, Case};
use crate::vector_calls;
use model::cost::standing;
use model::cube::{Cube, RECORD, truth_vector};
use model::polarity;
use model::script::{self, STEP, Step};
use model::trees;
use std::cmp::Ordering;
use std::fmt;

/// The candidates of a map that was settled.
struct Candidates {
    /// What the script leaves before the undoing of its L steps.
    before_the_undoing: Vec<Cube>,
    /// The script's result, the given list and, for at most 8 variables, the form and the tree's list.
    lists: Vec<Vec<Cube>>,
    /// For at most 6 variables, the Kronecker form's list, which is no candidate.
    kronecker: Option<Vec<Cube>>,
}

impl Candidates {
    fn of(case: &Case, best: usize) -> Candidates {
        let n = case.n as usize;
        let given = case.cubes();
        let steps: Vec<Step> = case.script.chunks(STEP).filter_map(|bytes| script::decoded(n, bytes)).collect();
        let capacity = (case.work.len() / RECORD).min(4096);
        let mut before_the_undoing = given.clone();
        for &step in &steps {
            script::step(&mut before_the_undoing, step, capacity, 0).expect("a script that was not refused");
        }
        let result = script::run(&given, &steps, capacity).expect("the same").list;
        let mut lists = vec![result, given];
        let mut kronecker = None;
        if n <= 8 {
            let vector = truth_vector(n, &lists[1]);
            lists.push(polarity::form(n, &polarity::coefficients(&vector, best), best));
            lists.push(trees::list(&vector));
            kronecker = (n <= 6).then(|| vector_calls::list(Call::WriteKronecker, &vector));
        }
        Candidates { before_the_undoing, lists, kronecker }
    }

    /// The candidate that a rule takes: the least, and of several such the first.
    fn taken(&self, rule: Rule) -> usize {
        (0..self.lists.len()).min_by_key(|&k| rule(self, k)).expect("there are two")
    }
}

/// What a rule compares of a candidate: cost, products, and its place where both are the same.
type Rule = fn(&Candidates, usize) -> (usize, usize, usize);

const BY_COST: Rule = |candidates, k| at(standing(&candidates.lists[k]), k);

const OTHERS: [(&str, Rule); 8] = [
    ("no tree", |candidates, k| if k == 3 { (usize::MAX, 0, 0) } else { BY_COST(candidates, k) }),
    ("the tree before the form", |candidates, k| at(standing(&candidates.lists[k]), [0, 1, 3, 2][k])),
    ("the tree before all others", |candidates, k| at(standing(&candidates.lists[k]), [1, 2, 3, 0][k])),
    ("products alone", |candidates, k| (candidates.lists[k].len(), 0, k)),
    ("products forgotten on a tie", |candidates, k| (standing(&candidates.lists[k]).0, 0, k)),
    ("the constant free each time", |candidates, k| {
        let list = &candidates.lists[k];
        (list.iter().filter(|cube| !bare(cube)).count(), list.len(), k)
    }),
    ("the script's constant before the undoing", |candidates, k| {
        at(less_if(k == 0, &candidates.lists[k], &candidates.before_the_undoing), k)
    }),
    ("the given list's constant for the script's", |candidates, k| {
        at(less_if(k == 0, &candidates.lists[k], &candidates.lists[1]), k)
    }),
];

fn at((cost, products): (usize, usize), place: usize) -> (usize, usize, usize) {
    (cost, products, place)
}

/// A list's cost, with the constant looked for in another list where it is said so.
fn less_if(other: bool, list: &[Cube], elsewhere: &[Cube]) -> (usize, usize) {
    let free = if other { elsewhere } else { list }.iter().any(bare);
    (list.len().saturating_sub(usize::from(free)), list.len())
}

fn bare(cube: &Cube) -> bool {
    cube.iter().all(|&code| code == 2)
}

const BURNED: [&str; 4] = ["the script's result", "the given list", "the form", "the tree's list"];

/// How the tree's list stands beside the form, by cost and then products.
const BESIDE: [&str; 4] = ["lower", "as high with other products", "the same list", "higher"];

/// Document 02, Ten: "settling ignores it".
const FIFTH: [&str; 2] = ["not burned", "burned"];

/// Settled maps by what was burned, those of at most 8 variables by how the tree's list stands beside the form, those of at most 6
/// by whether the Kronecker form's list would be burned if it were a candidate, and the rules that would have burned another list.
#[derive(Default)]
pub struct Choices {
    burned: [u64; BURNED.len()],
    beside: [u64; BESIDE.len()],
    fifth: [u64; FIFTH.len()],
    another: [u64; OTHERS.len()],
}

impl Choices {
    /// Adds an accepted call of settle.
    pub fn add(&mut self, case: &Case, answer: &[u64; 8]) {
        let candidates = Candidates::of(case, answer[5] as usize);
        let burned = candidates.taken(BY_COST);
        self.burned[burned] += 1;
        if let [_, _, form, tree] = &candidates.lists[..] {
            self.beside[match standing(tree).cmp(&standing(form)) {
                Ordering::Less => 0,
                Ordering::Equal => 1 + usize::from(tree == form),
                Ordering::Greater => 3,
            }] += 1;
        }
        if let Some(list) = &candidates.kronecker {
            self.fifth[usize::from(standing(list) < standing(&candidates.lists[burned]))] += 1;
        }
        for (count, (_, rule)) in self.another.iter_mut().zip(OTHERS) {
            let taken = candidates.taken(rule);
            *count += u64::from(candidates.lists[taken] != candidates.lists[burned]);
        }
    }

    /// What was never met, and the rules that would never have been seen.
    pub fn amiss(&self) -> Vec<String> {
        unmet(&self.counts())
    }

    fn counts(&self) -> [Counts; 4] {
        let rules = OTHERS.map(|(name, _)| name);
        [
            ("burned", BURNED.into_iter().zip(self.burned).collect()),
            ("the tree's list stands beside the form", BESIDE.into_iter().zip(self.beside).collect()),
            ("the Kronecker form, as a fifth candidate", FIFTH.into_iter().zip(self.fifth).collect()),
            ("another list burned by other rules", rules.into_iter().zip(self.another).collect()),
        ]
    }
}

impl fmt::Display for Choices {
    fn fmt(&self, f: &mut fmt::Formatter) -> fmt::Result {
        write_lines(f, &self.counts())
    }
}

/// The best polarities of the same vector by products alone, and with products forgotten on a tie.
pub fn other_polarities(n: usize, vector: &[u8]) -> [usize; 2] {
    let standings: Vec<(usize, usize)> =
        (0..vector.len()).map(|p| standing(&polarity::form(n, &polarity::coefficients(vector, p), p))).collect();
    let by_products = (0..vector.len()).min_by_key(|&p| standings[p].1);
    let forgotten = (0..vector.len()).min_by_key(|&p| standings[p].0);
    [by_products, forgotten].map(|p| p.expect("there is one"))
}
