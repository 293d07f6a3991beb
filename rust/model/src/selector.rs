//! Document 02, Thirteen: "The selector as a product."
//!
//! A map is its lists and, where they are settled, their scripts, cut out of the lent buffers. What is done with a list is what the call on that list
//! alone does, in buffers of its own; what the map answers and leaves is put together from these.

use crate::calls::{self, Outcome};
use crate::cost::cost;
use crate::cube::{self, PLACE, RECORD};
use crate::refusal::{Refusal, refuse_if};

/// "1 to 12 plain lists, one per slot bit."
pub const MOST_LISTS: usize = 12;

/// A number for each list, and zeros after the last.
pub type PerList = [u64; MOST_LISTS];

/// Lists or scripts, "end to end in a lent buffer with their lengths".
#[derive(Clone, Copy)]
pub struct Parts<'a> {
    pub bytes: &'a [u8],
    pub lengths: &'a [u64],
}

/// "A refused list or script refuses the map, with the list's number."
#[derive(Clone, Copy, Debug, PartialEq, Eq)]
pub struct MapRefusal {
    pub refusal: Refusal,
    /// Nothing where the map is refused for no list of it.
    pub list: Option<usize>,
}

/// The value that an accepted call answers.
pub type MapOutcome = Result<u64, MapRefusal>;

/// The eight words of an answer. A refusal has two values: its third answer, and the list's number, all ones where there is none.
pub fn words(outcome: &MapOutcome) -> [u64; 8] {
    match outcome {
        Ok(value) => calls::words(&Ok(vec![*value])),
        Err(MapRefusal { refusal, list }) => {
            let mut words = calls::words(&Err(*refusal));
            words[3] = list.map_or(u64::MAX, |list| list as u64);
            words
        }
    }
}

/// "Answers a label's slot number, bit k from list k."
pub fn slot(n: u64, lists: Parts, a: u64) -> MapOutcome {
    let lists = cut_lists(lists)?;
    let values = in_turn(&lists, |k| calls::value(n, lists[k], a))?;
    Ok(number(values.iter().map(|value| value[0])))
}

/// "It settles each list with its own script, the burned lists end to end in an output buffer and zeros after, and answers their lengths and the map's
/// total cost."
pub fn settle_map(
    n: u64,
    lists: Parts,
    scripts: Parts,
    work: &mut [u8],
    out: &mut [u8],
    burned_lengths: &mut PerList,
) -> MapOutcome {
    let room = lists.bytes.len();
    let lists = cut_lists(lists)?;
    of_the_map(refuse_if(scripts.lengths.len() != lists.len(), 26))?;
    let scripts = of_the_map(cut(scripts))?;
    of_the_map(refuse_if(out.len() < room, 5))?;
    let mut burned: Vec<Vec<u8>> = Vec::new();
    let settled = in_turn(&lists, |k| {
        let mut own = vec![0; lists[k].len()];
        let values = calls::settle(n, lists[k], scripts[k], work, &mut own)?;
        own.truncate(RECORD * values[5] as usize);
        burned.push(own);
        Ok(values)
    });
    work.fill(0);
    out.fill(0);
    burned_lengths.fill(0);
    settled?;
    put(out, &burned.concat());
    put(burned_lengths, &burned.iter().map(|list| list.len() as u64).collect::<Vec<_>>());
    Ok(burned.iter().map(|list| cost_of(n, list)).sum())
}

/// "It writes the reasons of One for all bits end to end, with their numbers."
pub fn map_reasons(n: u64, lists: Parts, a: u64, out: &mut [u8], numbers: &mut PerList) -> MapOutcome {
    let lists = cut_lists(lists)?;
    let records: usize = lists.iter().map(|list| list.len() / RECORD).sum();
    of_the_map(refuse_if(out.len() < PLACE * records, 5))?;
    let mut places: Vec<Vec<u8>> = Vec::new();
    let shown = in_turn(&lists, |k| {
        let mut own = vec![0; PLACE * (lists[k].len() / RECORD)];
        let values = calls::reasons(n, lists[k], a, &mut own)?;
        own.truncate(PLACE * values[0] as usize);
        places.push(own);
        Ok(values)
    });
    if shown.is_err() {
        out.fill(0);
    }
    numbers.fill(0);
    let shown = shown?;
    put(out, &places.concat());
    put(numbers, &shown.iter().map(|values| values[0]).collect::<Vec<_>>());
    Ok(number(shown.iter().map(|values| values[1])))
}

/// The lists of a map: "24 for no list or more than 12, then 26 for lengths that don't add up".
fn cut_lists(lists: Parts<'_>) -> Result<Vec<&[u8]>, MapRefusal> {
    let count = lists.lengths.len();
    of_the_map(refuse_if(count == 0 || count > MOST_LISTS, 24))?;
    of_the_map(cut(lists))
}

/// Each part by itself; the lengths are added as numbers that don't end at 2^64.
fn cut(parts: Parts<'_>) -> Result<Vec<&[u8]>, Refusal> {
    let sum: u128 = parts.lengths.iter().map(|&length| u128::from(length)).sum();
    refuse_if(sum != parts.bytes.len() as u128, 26)?;
    let ends = (1..=parts.lengths.len()).map(|k| parts.lengths[..k].iter().sum::<u64>());
    Ok(ends.zip(parts.lengths).map(|(end, length)| &parts.bytes[(end - length) as usize..end as usize]).collect())
}

/// "Then the lists in turn": what the call on each answers, or the first refusal.
fn in_turn(lists: &[&[u8]], mut call: impl FnMut(usize) -> Outcome) -> Result<Vec<Vec<u64>>, MapRefusal> {
    (0..lists.len()).map(|k| call(k).map_err(|refusal| MapRefusal { refusal, list: Some(k) })).collect()
}

/// A refusal that belongs to no list.
fn of_the_map<T>(outcome: Result<T, Refusal>) -> Result<T, MapRefusal> {
    outcome.map_err(|refusal| MapRefusal { refusal, list: None })
}

/// The number whose bit k is the one at place k.
fn number(bits: impl Iterator<Item = u64>) -> u64 {
    bits.enumerate().map(|(k, bit)| bit * 2u64.pow(k as u32)).sum()
}

/// What the records of a list cost.
pub fn cost_of(n: u64, list: &[u8]) -> u64 {
    let cubes: Vec<_> = list.chunks(RECORD).filter_map(|record| cube::decoded(n as usize, record)).collect();
    cost(&cubes) as u64
}

fn put<T: Copy>(buffer: &mut [T], front: &[T]) {
    buffer[..front.len()].copy_from_slice(front);
}
