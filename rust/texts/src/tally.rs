//! What was compared: how many texts were accepted, how many refused by each number, and which limits were met.

use crate::compare_scripts::Answer;
use crate::lines::{MOST_BYTES, Refusal};
use crate::map::Map;
use crate::map_reader::MOST_PRODUCTS;
use crate::script::MOST_STEPS;
use std::collections::BTreeMap;
use std::fmt;

const OF_MAPS: [usize; 8] = [27, 28, 29, 30, 31, 32, 33, 36];
const OF_SCRIPTS: [usize; 3] = [34, 35, 36];

/// What accepted texts must have been among others, each with how often it was.
type Met = BTreeMap<&'static str, usize>;

#[derive(Default)]
pub struct Tally {
    pub damaged: usize,
    maps: Answers,
    scripts: Answers,
    met: Met,
}

#[derive(Default)]
struct Answers {
    accepted: usize,
    refused: BTreeMap<usize, usize>,
}

impl Answers {
    fn refuse(&mut self, refusal: Refusal) {
        *self.refused.entry(refusal.number).or_default() += 1;
    }

    fn not_met(&self, numbers: &[usize], of: &str) -> Vec<String> {
        let not_met = numbers.iter().filter(|number| !self.refused.contains_key(number));
        let mut not_met: Vec<String> = not_met.map(|number| format!("no {of} refused by {number}")).collect();
        if self.accepted == 0 {
            not_met.push(format!("no {of} accepted"));
        }
        not_met
    }
}

impl fmt::Display for Answers {
    fn fmt(&self, f: &mut fmt::Formatter) -> fmt::Result {
        write!(f, "{} accepted; refused", self.accepted)?;
        for (number, times) in &self.refused {
            write!(f, " {number}: {times}")?;
        }
        Ok(())
    }
}

impl Tally {
    fn meet(&mut self, what: &'static str, met: bool) {
        *self.met.entry(what).or_default() += usize::from(met);
    }

    /// What is met in the layout of accepted texts of either kind.
    fn add_layout(&mut self, text: &[u8]) {
        self.meet("accepted texts of 1,048,576 bytes", text.len() == MOST_BYTES);
        self.meet("accepted texts with CR LF", text.windows(2).any(|pair| pair == b"\r\n"));
        self.meet("accepted texts with tabs", text.contains(&b'\t'));
        self.meet("accepted texts with comments", text.contains(&b'#'));
        self.meet("accepted texts without a last newline", text.last().is_some_and(|&byte| byte != b'\n'));
    }

    pub fn add_map(&mut self, text: &[u8], answer: &Result<Map, Refusal>) {
        match answer {
            Err(refusal) => {
                self.maps.refuse(*refusal);
                let lines = 1 + text.iter().filter(|&&byte| byte == b'\n').count();
                let lines = lines - usize::from(text.last().is_none_or(|&byte| byte == b'\n'));
                self.meet("maps refused after the last line", refusal.line == Some(lines + 1));
            }
            Ok(map) => {
                self.maps.accepted += 1;
                self.add_layout(text);
                self.meet("accepted maps with 0 inputs", map.inputs == 0);
                self.meet("accepted maps with 32 inputs", map.inputs == 32);
                self.meet("accepted maps with 2 to 31 outputs", (2..32).contains(&map.outputs));
                self.meet("accepted maps with 32 outputs", map.outputs == 32);
                self.meet("accepted maps without products", map.products.is_empty());
                self.meet("accepted maps with 4,096 products", map.products.len() == MOST_PRODUCTS);
                let searched = map.outputs == 1 && map.inputs <= 8;
                self.meet("settled maps valued at every label", searched);
                self.meet("settled maps printed as they are", !searched);
            }
        }
    }

    pub fn add_script(&mut self, text: &[u8], answer: &Result<Answer, Refusal>) {
        match answer {
            Err(refusal) => self.scripts.refuse(*refusal),
            Ok(Answer { steps, refused_by, removed }) => {
                self.scripts.accepted += 1;
                self.add_layout(text);
                self.meet("accepted scripts without steps", *steps == 0);
                self.meet("accepted scripts with 1,024 steps", *steps == MOST_STEPS);
                self.meet("accepted scripts with a step that 9 refuses", *refused_by == Some(9));
                self.meet("accepted scripts with a step that 10 refuses", *refused_by == Some(10));
                self.meet("accepted scripts that settle does", refused_by.is_none());
                self.meet("accepted scripts compacted to fewer steps", removed.is_some_and(|removed| removed > 0));
                self.meet("accepted scripts compacted to themselves", *removed == Some(0));
            }
        }
    }

    /// What should have been met and was not.
    pub fn amiss(&self) -> Vec<String> {
        let mut amiss = self.maps.not_met(&OF_MAPS, "map");
        amiss.extend(self.scripts.not_met(&OF_SCRIPTS, "script"));
        amiss.extend(self.met.iter().filter(|&(_, &times)| times == 0).map(|(what, _)| format!("no {what}")));
        amiss
    }
}

impl fmt::Display for Tally {
    fn fmt(&self, f: &mut fmt::Formatter) -> fmt::Result {
        writeln!(f, "{} texts were damaged", self.damaged)?;
        writeln!(f, "maps: {}", self.maps)?;
        writeln!(f, "scripts: {}", self.scripts)?;
        for (what, times) in &self.met {
            writeln!(f, "{what}: {times}")?;
        }
        Ok(())
    }
}
