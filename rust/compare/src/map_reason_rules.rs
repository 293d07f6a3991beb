//! What the reasons of a map of several lists would have come to by rules that are not document 02's.

use crate::map_rules::{Rule, Told, ends, is_garbage};
use model::cube::{PLACE, RECORD, decoded_places, encoded_places};

/// The places of each list.
fn places(told: &Told) -> Vec<Vec<usize>> {
    let mut all = decoded_places(&told.after.out[..PLACE * trues(told)]);
    let numbers = &told.after.numbers[..told.case.lengths.len()];
    numbers.iter().map(|&number| all.drain(..number as usize).collect()).collect()
}

/// How many products are true in all lists.
fn trues(told: &Told) -> usize {
    told.after.numbers.iter().sum::<u64>() as usize
}

/// Whether an accepted call would have left something else in its output.
fn else_writes(told: &Told, rule: fn(&Told, Vec<Vec<usize>>) -> Vec<u8>) -> bool {
    told.is_accepted() && !told.after.out.starts_with(&rule(told, places(told)))
}

pub const REASONS: [Rule; 8] = [
    ("places counted over all lists", |told| {
        else_writes(told, |told, places| {
            let moved = places.iter().enumerate().flat_map(|(k, places)| {
                let before = told.records_before(k);
                places.iter().map(move |place| before + place)
            });
            encoded_places(&moved.collect::<Vec<_>>())
        })
    }),
    ("the last list's places first", |told| {
        else_writes(told, |_, places| encoded_places(&places.into_iter().rev().flatten().collect::<Vec<_>>()))
    }),
    ("each list's places where all of its records have room", |told| {
        else_writes(told, |told, places| {
            let mut out = told.case.out.clone();
            for (k, places) in places.iter().enumerate() {
                out[PLACE * told.records_before(k)..][..PLACE * places.len()].copy_from_slice(&encoded_places(places));
            }
            out
        })
    }),
    ("the rest cleared", |told| told.is_accepted() && is_garbage(&told.case.out[PLACE * trues(told)..])),
    ("numbers added up", |told| {
        told.is_accepted() && ends(&told.after.numbers, told.case.lengths.len()) != told.after.numbers
    }),
    ("OR for the parity", |told| {
        told.is_accepted() && (0..12).any(|k| u64::from(told.after.numbers[k] > 0) != told.after.answer[2] >> k & 1)
    }),
    ("room by the true products", |told| {
        let fits = |trues: u64| PLACE as u64 * trues <= told.case.out.len() as u64;
        told.with_room().is_some_and(|left| fits(left.numbers.iter().sum()))
    }),
    ("the records of all bytes together", |told| {
        let room = told.is_accepted() || told.list().is_some();
        room && told.case.out.len() < PLACE * (told.case.input.len() / RECORD)
    }),
];
