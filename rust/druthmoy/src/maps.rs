//! The calls on maps of several lists: each answers what it found, or the refusal that it met and the list that it is of.

use crate::calls::accepted;
use crate::records::{LISTS, Parts, PerList};
use crate::refusal::MapRefusal;
use crate::words::{self, Words};

/// What stands for a list's number where the map is refused for none of its lists.
const NO_LIST: u64 = u64::MAX;

/// A settled map: the lengths of its burned lists in bytes, and what they cost together. A list costs its number of products, less one if one of them
/// has no literal.
#[derive(Clone, Copy, Debug, PartialEq, Eq)]
pub struct SettledMap {
    pub lengths: PerList,
    pub cost: u64,
}

/// A label's slot, and the number of products that are true there in each list.
#[derive(Clone, Copy, Debug, PartialEq, Eq)]
pub struct MapReasons {
    pub slot: u64,
    pub trues: PerList,
}

/// The slot number of a label: bit k is the value of list k there.
pub fn slot(n: u64, lists: Parts, a: u64) -> Result<u64, MapRefusal> {
    first_value(words::slot(n, lists, a))
}

/// Settles each list of a map with its own script, as [`settle`](crate::settle) does, one after the other in `work`, which ends all zero. The burned lists
/// stand end to end at the front of `out`, which is as long as the lists or longer, with zeros after them.
pub fn settle_map(
    n: u64,
    lists: Parts,
    scripts: Parts,
    work: &mut [u8],
    out: &mut [u8],
) -> Result<SettledMap, MapRefusal> {
    let mut lengths = [0; LISTS];
    let cost = first_value(words::settle_map(n, lists, scripts, work, out, &mut lengths))?;
    Ok(SettledMap { lengths, cost })
}

/// Writes the places of the products that are true at a label, of each list in turn as [`reasons`](crate::reasons) does, end to end to the front of
/// `out`, which has room for the places of all products of all lists.
pub fn map_reasons(n: u64, lists: Parts, a: u64, out: &mut [u8]) -> Result<MapReasons, MapRefusal> {
    let mut trues = [0; LISTS];
    let slot = first_value(words::map_reasons(n, lists, a, out, &mut trues))?;
    Ok(MapReasons { slot, trues })
}

/// The value of an accepted call, or the refusal.
fn first_value(answer: Words) -> Result<u64, MapRefusal> {
    let list = Some(answer[3]).filter(|&list| list != NO_LIST);
    accepted(answer).map(|[value, ..]| value).map_err(|refusal| MapRefusal { refusal, list })
}
