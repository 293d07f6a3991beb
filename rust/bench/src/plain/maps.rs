//! Slot, settle and reasons of a map of several lists: its lengths are added up, and its lists are taken in turn, each as by the call on a list.

use super::cube::{Cube, RECORD};
use super::lists::{PLACE, try_reasons, try_value};
use super::settling::try_settle;
use super::vectors::Way;
use super::{Refusal, Words, refuse_if, words};

/// Lists or scripts end to end, and their lengths.
pub type Parts<'a> = (&'a [u8], &'a [u64]);

const LISTS: usize = 12;

pub type PerList = [u64; LISTS];

struct MapRefusal {
    refusal: Refusal,
    list: u64,
}

#[inline(never)]
pub fn slot(n: u64, lists: Parts, a: u64, answer: &mut Words) {
    *answer = map_words(try_slot(n, lists, a));
}

#[inline(never)]
pub fn settle_map<W: Way>(
    n: u64,
    lists: Parts,
    scripts: Parts,
    work: &mut [u8],
    out: &mut [u8],
    lengths: &mut PerList,
    answer: &mut Words,
) {
    *answer = map_words(try_settle_map::<W>(n, lists, scripts, work, out, lengths));
}

#[inline(never)]
pub fn map_reasons(n: u64, lists: Parts, a: u64, out: &mut [u8], numbers: &mut PerList, answer: &mut Words) {
    *answer = map_words(try_map_reasons(n, lists, a, out, numbers));
}

fn map_words(outcome: Result<u64, MapRefusal>) -> Words {
    match outcome {
        Ok(value) => words(Ok([value])),
        Err(MapRefusal { refusal, list }) => {
            let mut words = words::<1>(Err(refusal));
            words[3] = list;
            words
        }
    }
}

fn of_the_map(broken: bool, number: u64) -> Result<(), MapRefusal> {
    refuse_if(broken, number).map_err(|refusal| MapRefusal { refusal, list: u64::MAX })
}

fn of_list<T>(list: usize, outcome: Result<T, Refusal>) -> Result<T, MapRefusal> {
    outcome.map_err(|refusal| MapRefusal { refusal, list: list as u64 })
}

/// Rules 24 and 26.
fn checked((lists, lengths): Parts) -> Result<(), MapRefusal> {
    of_the_map(lengths.is_empty() || lengths.len() > LISTS, 24)?;
    of_the_map(!add_up((lists, lengths)), 26)
}

fn add_up((bytes, lengths): Parts) -> bool {
    lengths.iter().try_fold(0u64, |sum, &length| sum.checked_add(length)) == Some(bytes.len() as u64)
}

/// Cuts the first part off.
fn next<'a>(rest: &mut &'a [u8], length: u64) -> &'a [u8] {
    let (part, after) = rest.split_at(length as usize);
    *rest = after;
    part
}

fn try_slot(n: u64, lists: Parts, a: u64) -> Result<u64, MapRefusal> {
    checked(lists)?;
    let (mut rest, lengths) = lists;
    let mut slot = 0;
    for (k, &length) in lengths.iter().enumerate() {
        let [bit, _] = of_list(k, try_value(n, next(&mut rest, length), a))?;
        slot |= bit << k;
    }
    Ok(slot)
}

fn try_settle_map<W: Way>(
    n: u64,
    lists: Parts,
    scripts: Parts,
    work: &mut [u8],
    out: &mut [u8],
    burned_lengths: &mut PerList,
) -> Result<u64, MapRefusal> {
    checked(lists)?;
    of_the_map(scripts.1.len() != lists.1.len() || !add_up(scripts), 26)?;
    of_the_map(out.len() < lists.0.len(), 5)?;
    let settled = settle_each::<W>(n, lists, scripts, work, out, burned_lengths);
    if settled.is_err() {
        work.fill(0);
        out.fill(0);
        burned_lengths.fill(0);
    }
    settled
}

/// Each list is settled in a part of the output that is as long, behind the burned ones; answers what they cost.
fn settle_each<W: Way>(
    n: u64,
    lists: Parts,
    scripts: Parts,
    work: &mut [u8],
    out: &mut [u8],
    burned_lengths: &mut PerList,
) -> Result<u64, MapRefusal> {
    let ((mut lists, lengths), (mut scripts, script_lengths)) = (lists, scripts);
    let (mut end, mut cost) = (0, 0);
    for (k, (&length, &script_length)) in lengths.iter().zip(script_lengths).enumerate() {
        let (list, script) = (next(&mut lists, length), next(&mut scripts, script_length));
        let part = &mut out[end..][..list.len()];
        let [.., burned] = of_list(k, try_settle::<W>(n, list, script, work, part))?;
        let burned = &part[..RECORD * burned as usize];
        cost += cost_of(burned.as_chunks().0);
        burned_lengths[k] = burned.len() as u64;
        end += burned.len();
    }
    out[end..].fill(0);
    burned_lengths[lengths.len()..].fill(0);
    Ok(cost)
}

/// The number of products, less one if one of them has no literal.
fn cost_of(records: &[[u8; RECORD]]) -> u64 {
    let free = records.iter().filter(|record| Cube::read(record).seen == 0).count() > 0;
    records.len() as u64 - u64::from(free)
}

fn try_map_reasons(n: u64, lists: Parts, a: u64, out: &mut [u8], numbers: &mut PerList) -> Result<u64, MapRefusal> {
    checked(lists)?;
    let records: usize = lists.1.iter().map(|&length| length as usize / RECORD).sum();
    of_the_map(out.len() < PLACE * records, 5)?;
    let shown = show_each(n, lists, a, out, numbers);
    if shown.is_err() {
        out.fill(0);
        numbers.fill(0);
    }
    shown
}

fn show_each(n: u64, lists: Parts, a: u64, out: &mut [u8], numbers: &mut PerList) -> Result<u64, MapRefusal> {
    let (mut rest, lengths) = lists;
    let (mut end, mut slot) = (0, 0);
    for (k, &length) in lengths.iter().enumerate() {
        let [trues, bit] = of_list(k, try_reasons(n, next(&mut rest, length), a, &mut out[end..]))?;
        numbers[k] = trues;
        end += PLACE * trues as usize;
        slot |= bit << k;
    }
    numbers[lengths.len()..].fill(0);
    Ok(slot)
}
