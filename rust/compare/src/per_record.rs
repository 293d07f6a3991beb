//! Calls on a list with an output of so many bytes a record: every set of faults together, and the short lists to try
//! them on.

use crate::differ::{Call, Case, compare, empty};
use model::refusal::ORDERS;

/// A call, the most variables that it takes, and the bytes of a record that it reads and of the output for it.
pub struct PerRecord {
    pub call: Call,
    pub limit: u64,
    pub from: usize,
    pub to: usize,
    /// Bits beyond the first three to try in the masks of a record.
    pub far: &'static [u32],
}

impl PerRecord {
    /// At an assignment, where the call takes one.
    pub fn case(&self, n: u64, input: &[u8], number: u64, room: usize) -> Case {
        let out = vec![0xc3; room];
        Case { input: input.to_vec(), number, out, ..empty(self.call, n) }
    }

    /// The bytes of output for so many bytes of records.
    pub fn room(&self, length: usize) -> usize {
        length / self.from * self.to
    }

    pub fn name(&self) -> &'static str {
        ORDERS[self.call as usize].0
    }

    /// Input with each set of the faults that the call tests for: the answer is the first of its order.
    pub fn faults_together(&self) -> Result<(), String> {
        let order = ORDERS[self.call as usize].1;
        for set in 0..1u32 << order.len() {
            let faults: Vec<u64> = (0..order.len()).filter(|k| set >> k & 1 == 1).map(|k| order[k]).collect();
            let case = self.with_faults(&faults);
            let expected = faults.first().copied().unwrap_or(0);
            let answer = compare(&case)?;
            if answer[0] != expected {
                return Err(format!("with faults {faults:?} the answer is {answer:?}\n{case}"));
            }
        }
        println!("{}: all {} sets of the faults {order:?}", self.name(), 1 << order.len());
        Ok(())
    }

    fn with_faults(&self, faults: &[u64]) -> Case {
        let has = |number| faults.contains(&number);
        let n = if has(1) {
            self.limit + 1
        } else if has(20) {
            17
        } else {
            16
        };
        let mut input = self.record(3, 1).repeat(if has(3) { 4097 } else { 3 });
        if has(4) {
            input[2 * self.from..][..self.from].copy_from_slice(&self.record(1, 2));
        }
        let number = if has(6) { 1 << n } else { 0 };
        let room = self.room(input.len()) - usize::from(has(5));
        input.extend(has(2).then_some(0));
        self.case(n, &input, number, room)
    }

    /// Every list of up to 2 records over at most 2 variables, good and bad.
    pub fn short_lists(&self) -> Vec<Vec<u8>> {
        let masks: Vec<u32> = (0..8).chain(self.far.iter().map(|k| 1 << k)).collect();
        let pairs = masks.iter().flat_map(|&seen| masks.iter().map(move |&value| (seen, value)));
        let records: Vec<Vec<u8>> = pairs.map(|(seen, value)| self.record(seen, value)).collect();
        let mut lists = vec![vec![]];
        lists.extend(records.iter().cloned());
        lists.extend(records.iter().flat_map(|a| records.iter().map(move |b| [&a[..], b].concat())));
        lists
    }

    /// The record with these masks.
    fn record(&self, seen: u32, value: u32) -> Vec<u8> {
        let half = self.from / 2;
        [&seen.to_le_bytes()[..half], &value.to_le_bytes()[..half]].concat()
    }
}
