//! Document 02, Thirteen: "replacing one bit's list must not change any other bit of any slot, where both maps are accepted". Random maps in which one list
//! is replaced by another.

use crate::cases::{case, cubes};
use crate::counts::{Counts, unmet, write_lines};
use crate::differ::{Call, Case, compared, empty};
use crate::map_lists::slot_at;
use crate::map_parts::end_to_end;
use crate::random::Random;
use model::cube::encoded_list;
use model::selector::MOST_LISTS;
use std::fmt;

const KINDS: [&str; 3] = ["a longer one", "one as long", "a shorter one"];

const SWAYED: [&str; 2] = ["stays", "changes"];

/// Lists by their number, by what they are replaced with, and by what becomes of their bit.
#[derive(Default)]
struct Replaced {
    lists: [u64; MOST_LISTS],
    kinds: [u64; KINDS.len()],
    swayed: [u64; SWAYED.len()],
    bits_that_stay: u64,
}

pub fn all(calls: usize, seed: u64) -> Result<(), String> {
    let mut random = Random::new(seed.wrapping_mul(59));
    let mut replaced = Replaced::default();
    for number in 0..calls {
        let case = case(&mut random, Call::Slot);
        let after = compared(&case).map_err(|difference| format!("call {number} from seed {seed}: {difference}"))?;
        if after.answer[0] == 0 {
            replaced.add(&mut random, &case, after.answer[2])?;
        }
    }
    println!("{replaced}by the number of the list: {:?}", replaced.lists);
    println!("bits of other lists, all the same: {}", replaced.bits_that_stay);
    let amiss = unmet(&replaced.counts());
    match replaced.lists.contains(&0) {
        false if amiss.is_empty() => Ok(()),
        _ => Err(format!("not every list was replaced, or {}", amiss.join("\n"))),
    }
}

impl Replaced {
    fn add(&mut self, random: &mut Random, case: &Case, before: u64) -> Result<(), String> {
        let mut lists: Vec<Vec<u8>> = case.lists().into_iter().map(|list| list.to_vec()).collect();
        let k = random.below(lists.len());
        let count = random.below(7);
        let other = encoded_list(&cubes(random, case.n as usize, count));
        self.kinds[match other.len().cmp(&lists[k].len()) {
            std::cmp::Ordering::Greater => 0,
            std::cmp::Ordering::Equal => 1,
            std::cmp::Ordering::Less => 2,
        }] += 1;
        lists[k] = other;
        let (input, lengths) = end_to_end(&lists);
        let changed = Case { input, lengths, ..case.clone() };
        let after = slot_at(&changed, case.number)?;
        let value = Case { input: lists[k].clone(), number: case.number, ..empty(Call::Value, case.n) };
        let bit = compared(&value)?.answer[2];
        if (after ^ before) & !(1 << k) != 0 || after >> k & 1 != bit {
            return Err(format!("with another list {k} the slot is {after:x}\n{case}\n{changed}"));
        }
        self.lists[k] += 1;
        self.swayed[usize::from(after != before)] += 1;
        self.bits_that_stay += lists.len() as u64 - 1;
        Ok(())
    }

    fn counts(&self) -> [Counts; 2] {
        [
            ("a list of a map replaced by", KINDS.into_iter().zip(self.kinds).collect()),
            ("its bit", SWAYED.into_iter().zip(self.swayed).collect()),
        ]
    }
}

impl fmt::Display for Replaced {
    fn fmt(&self, f: &mut fmt::Formatter) -> fmt::Result {
        write_lines(f, &self.counts())
    }
}
