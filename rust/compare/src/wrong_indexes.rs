//! In what ways a lent index is not the list's, looked at by itself.

use crate::group_rules::Asked;
use model::cube::PLACE;
use model::index::literals;
use std::collections::BTreeSet;

/// Whether an index is wrong so.
type Way = fn(&Asked) -> bool;

/// Of indexes that are refused with 25; one can be wrong in several ways.
pub const WAYS: [(&str, Way); 14] = [
    ("two entries exchanged", |asked| {
        let apart = apart(asked);
        matches!(apart[..], [a, b] if asked.entries[a] == asked.right.0[b] && asked.entries[b] == asked.right.0[a])
    }),
    ("two of one group exchanged", |asked| {
        let apart = apart(asked);
        matches!(apart[..], [a, b] if number(asked, a) == number(asked, b) && are_places(asked))
    }),
    ("two equal entries", |asked| asked.entries.iter().collect::<BTreeSet<_>>().len() < asked.entries.len()),
    ("an entry out of range", |asked| asked.entries.iter().any(|&place| place >= asked.list.len())),
    ("an entry of another group", |asked| {
        apart(asked).iter().any(|&k| number(asked, k).is_some_and(|m| m != literals(&asked.list[asked.right.0[k]])))
    }),
    ("one wrong low byte", |asked| one_byte(asked, |wrong| wrong < 256)),
    ("one wrong high byte", |asked| one_byte(asked, |wrong| wrong % 256 == 0)),
    ("the index of another list", |asked| asked.wrong_entry().is_some() && are_places(asked) && are_an_index(asked)),
    ("entries by place alone", |asked| asked.wrong_entry().is_some() && asked.entries.is_sorted() && are_places(asked)),
    ("right entries, one start off by one", |asked| {
        asked.wrong_entry().is_none() && matches!(starts_apart(asked)[..], [1 | -1])
    }),
    ("right entries, starts in bytes", |asked| {
        let doubled = asked.right.1.map(|start| PLACE as u64 * start);
        asked.wrong_entry().is_none() && *asked.starts == doubled
    }),
    ("right entries, starts from the end", |asked| {
        let from_the_end = asked.right.1.map(|start| asked.list.len() as u64 - start);
        asked.wrong_entry().is_none() && *asked.starts == from_the_end
    }),
    ("right entries, the last start alone wrong", |asked| {
        asked.wrong_entry().is_none() && asked.wrong_start() == Some(32)
    }),
    ("right entries, a start beyond 4,096", |asked| {
        asked.wrong_entry().is_none() && asked.starts.iter().any(|&start| start > 4096)
    }),
];

/// The entries that are wrong.
fn apart(asked: &Asked) -> Vec<usize> {
    (0..asked.entries.len()).filter(|&k| asked.entries[k] != asked.right.0[k]).collect()
}

/// By how much the wrong starts are.
fn starts_apart(asked: &Asked) -> Vec<i64> {
    let apart = asked.starts.iter().zip(&asked.right.1).map(|(&start, &right)| start.wrapping_sub(right) as i64);
    apart.filter(|&apart| apart != 0).collect()
}

/// The number of literals of the cube that an entry names.
fn number(asked: &Asked, k: usize) -> Option<usize> {
    asked.list.get(asked.entries[k]).map(literals)
}

/// Whether just one entry is wrong, by so much in its bits.
fn one_byte(asked: &Asked, so: fn(usize) -> bool) -> bool {
    matches!(apart(asked)[..], [k] if so(asked.entries[k] ^ asked.right.0[k]))
}

/// Each place is an entry.
fn are_places(asked: &Asked) -> bool {
    asked.entries.iter().copied().collect::<BTreeSet<_>>() == (0..asked.list.len()).collect()
}

/// The starts ascend from 0, and within a group the entries do.
fn are_an_index(asked: &Asked) -> bool {
    let count = asked.list.len() as u64;
    let in_range = asked.starts[0] == 0 && asked.starts.is_sorted() && asked.starts[32] <= count;
    let ends = asked.starts[1..].iter().chain([&count]);
    in_range && asked.starts.iter().zip(ends).all(|(&a, &b)| asked.entries[a as usize..b as usize].is_sorted())
}
