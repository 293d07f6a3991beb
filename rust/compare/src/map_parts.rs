//! The lists and scripts of a map, each by itself.

use crate::differ::{Call, Case, empty};
use model::cube::{PLACE, RECORD};

/// Lists or scripts as they are lent: the bytes end to end, and the lengths.
pub fn end_to_end(parts: &[Vec<u8>]) -> (Vec<u8>, Vec<u64>) {
    (parts.concat(), parts.iter().map(|part| part.len() as u64).collect())
}

/// The parts that lengths cut bytes into; those that go too far end with the bytes.
pub fn cut<'a>(bytes: &'a [u8], lengths: &[u64]) -> Vec<&'a [u8]> {
    let mut rest = bytes;
    let part = |&length: &u64| {
        let (part, after) = rest.split_at(rest.len().min(usize::try_from(length).unwrap_or(usize::MAX)));
        rest = after;
        part
    };
    lengths.iter().map(part).collect()
}

/// Whether lengths add up to so many bytes, as numbers that don't end at 2^64.
pub fn add_up(lengths: &[u64], bytes: usize) -> bool {
    let rest = lengths.iter().try_fold(bytes as u64, |rest, &length| rest.checked_sub(length));
    rest == Some(0)
}

impl Case {
    pub fn lists(&self) -> Vec<&[u8]> {
        cut(&self.input, &self.lengths)
    }

    /// As many as there are lists.
    pub fn scripts(&self) -> Vec<&[u8]> {
        let mut scripts = cut(&self.script, &self.script_lengths);
        scripts.resize(self.lengths.len(), &[]);
        scripts
    }

    /// The call on list k alone: value, settle or reasons, in an output of its own.
    pub fn alone(&self, k: usize) -> Case {
        let (n, number, input) = (self.n, self.number, self.lists()[k].to_vec());
        match self.call {
            Call::Slot => Case { input, number, ..empty(Call::Value, n) },
            Call::SettleMap => {
                let (script, work, out) = (self.scripts()[k].to_vec(), self.work.clone(), vec![0x5a; input.len()]);
                Case { input, script, work, out, ..empty(Call::Settle, n) }
            }
            _ => {
                let out = vec![0x5a; PLACE * (input.len() / RECORD)];
                Case { input, number, out, ..empty(Call::Reasons, n) }
            }
        }
    }
}
