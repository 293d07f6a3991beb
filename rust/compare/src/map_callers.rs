//! A case with a map of several lists as a call of the model, of the library by its words, and of the wrapper by its names.

use crate::callers::Buffers;
use crate::differ::{Call, Case};
use druthmoy::{MapReasons, MapRefusal, SettledMap, words};
use model::selector::{self, Parts};

pub fn modelled_of_map(case: &Case, on: Buffers) -> [u64; 8] {
    let Case { n, number, .. } = *case;
    let lists = Parts { bytes: &case.input, lengths: &case.lengths };
    let Buffers { script, work, out, numbers, .. } = on;
    selector::words(&match case.call {
        Call::Slot => selector::slot(n, lists, number),
        Call::SettleMap => {
            let scripts = Parts { bytes: script, lengths: &case.script_lengths };
            selector::settle_map(n, lists, scripts, work, out, numbers)
        }
        _ => selector::map_reasons(n, lists, number, out, numbers),
    })
}

/// With the lists and both arrays of lengths as they are lent.
pub fn answered_of_map(case: &Case, bytes: &[u8], lengths: [&[u64]; 2], on: Buffers) -> words::Words {
    let Case { n, number, .. } = *case;
    let [of_lists, of_scripts] = lengths;
    let lists = druthmoy::Parts { bytes, lengths: of_lists };
    let Buffers { script, work, out, numbers, .. } = on;
    match case.call {
        Call::Slot => words::slot(n, lists, number),
        Call::SettleMap => {
            let scripts = druthmoy::Parts { bytes: script, lengths: of_scripts };
            words::settle_map(n, lists, scripts, work, out, numbers)
        }
        _ => words::map_reasons(n, lists, number, out, numbers),
    }
}

/// The wrapper's answers, put back into words.
pub fn named_of_map(case: &Case, on: Buffers) -> [u64; 8] {
    match named(case, on) {
        Ok(value) => [0, 0, value, 0, 0, 0, 0, 0],
        Err(MapRefusal { refusal, list }) => {
            let list = list.unwrap_or(u64::MAX);
            [refusal.fault.number(), refusal.place, refusal.differing, list, 0, 0, 0, 0]
        }
    }
}

fn named(case: &Case, on: Buffers) -> Result<u64, MapRefusal> {
    let Case { n, number, .. } = *case;
    let lists = druthmoy::Parts { bytes: &case.input, lengths: &case.lengths };
    let Buffers { script, work, out, numbers, .. } = on;
    match case.call {
        Call::Slot => druthmoy::slot(n, lists, number),
        Call::SettleMap => {
            let scripts = druthmoy::Parts { bytes: script, lengths: &case.script_lengths };
            let SettledMap { lengths, cost } = druthmoy::settle_map(n, lists, scripts, work, out)?;
            *numbers = lengths;
            Ok(cost)
        }
        _ => {
            let MapReasons { slot, trues } = druthmoy::map_reasons(n, lists, number, out)?;
            *numbers = trues;
            Ok(slot)
        }
    }
}
