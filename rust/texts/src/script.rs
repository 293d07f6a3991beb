//! Scripts as text: read, printed, and what a program says of one that is read.

use crate::lines::{Refusal, characters, number, words};
use std::fmt;

pub const MOST_STEPS: usize = 1024;

#[derive(Clone, Copy, Debug, PartialEq, Eq)]
pub enum Step {
    Drop(usize, usize),
    Join(usize, usize),
    Split(usize, usize),
    Turn(usize, usize, usize),
    L(usize, usize),
    Merge(usize, usize),
}

use Step::{Drop, Join, L, Merge, Split, Turn};

impl Step {
    /// A variable at or above the number of inputs, a literal above 1, or a merge where there is one output: refused by 9, before the first step is done.
    pub fn is_bad(self, inputs: usize, outputs: usize) -> bool {
        match self {
            Drop(..) | Join(..) => false,
            Split(variable, _) | Turn(variable, ..) => variable >= inputs,
            L(variable, literal) => variable >= inputs || literal > 1,
            Merge(..) => outputs == 1,
        }
    }
}

impl fmt::Display for Step {
    fn fmt(&self, f: &mut fmt::Formatter) -> fmt::Result {
        match self {
            Drop(i, j) => write!(f, "drop {i} {j}"),
            Join(i, j) => write!(f, "join {i} {j}"),
            Split(variable, i) => write!(f, "split x{variable} {i}"),
            Turn(variable, i, j) => write!(f, "turn x{variable} {i} {j}"),
            L(variable, literal) => write!(f, "L x{variable} {literal}"),
            Merge(i, j) => write!(f, "merge {i} {j}"),
        }
    }
}

fn place(word: &str) -> Option<usize> {
    number(word, 65535)
}

fn variable(word: &str) -> Option<usize> {
    literal(word.strip_prefix('x')?)
}

fn literal(word: &str) -> Option<usize> {
    number(word, 255)
}

fn step(words: &[&str]) -> Option<Step> {
    match *words {
        ["drop", i, j] => Some(Drop(place(i)?, place(j)?)),
        ["join", i, j] => Some(Join(place(i)?, place(j)?)),
        ["split", v, i] => Some(Split(variable(v)?, place(i)?)),
        ["turn", v, i, j] => Some(Turn(variable(v)?, place(i)?, place(j)?)),
        ["L", v, of] => Some(L(variable(v)?, literal(of)?)),
        ["merge", i, j] => Some(Merge(place(i)?, place(j)?)),
        _ => None,
    }
}

/// The steps, each with its line.
pub fn read(text: &[u8]) -> Result<Vec<(usize, Step)>, Refusal> {
    let text = characters(text)?;
    let lines = (1..).zip(text.lines().map(words)).filter(|(_, words)| !words.is_empty());
    let mut steps = Vec::new();
    for (line, words) in lines {
        let step = step(&words).ok_or(Refusal::at(line, 34))?;
        if steps.len() == MOST_STEPS {
            return Err(Refusal::at(line, 35));
        }
        steps.push((line, step));
    }
    Ok(steps)
}

pub fn printed(steps: &[Step]) -> String {
    steps.iter().map(|step| format!("{step}\n")).collect()
}

/// The steps without those that undo each other, on a list of `count` products: the first pair goes, and then again from the front.
pub fn compacted(mut steps: Vec<Step>, count: usize) -> Vec<Step> {
    while let Some(first) = first_pair(&steps, count) {
        steps.drain(first..first + 2);
    }
    steps
}

fn first_pair(steps: &[Step], mut count: usize) -> Option<usize> {
    for (first, pair) in steps.windows(2).enumerate() {
        let undone = match pair[0] {
            L(..) | Turn(..) => pair[1] == pair[0],
            Split(_, i) => pair[1] == Join(i, count),
            _ => false,
        };
        if undone {
            return Some(first);
        }
        count = match pair[0] {
            Drop(..) => count.saturating_sub(2),
            Join(..) | Merge(..) => count.saturating_sub(1),
            Split(..) => count + 1,
            _ => count,
        };
    }
    None
}
