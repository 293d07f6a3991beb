//! One call of the library beside the same call of the model: answers, and every byte of every buffer.

use crate::callers::{by_model, by_names, by_words};
use crate::compacted::once_more;
use crate::kronecker_lists::beside_choices;
use crate::map_lists::beside_lists;
use crate::replays::replay;
use crate::searches::{beside_run, beside_search, each_group};
use crate::shared_values::{beside_plain_values, keeps_values};
use crate::starts;
use crate::tree_lists::beside_vector;
use model::cube::{Cube, RECORD, decoded};
use model::index::Starts;
use model::selector::{MOST_LISTS, PerList};
use model::shared::{self, SHARED_RECORD, Shared};
use std::fmt;

/// The calls, in the order of `model::refusal::ORDERS`.
#[derive(Clone, Copy, Debug, PartialEq, Eq)]
pub enum Call {
    Check,
    Value,
    Reasons,
    TruthVector,
    Coefficients,
    Vector,
    WriteForm,
    BestPolarity,
    WriteTree,
    WriteKronecker,
    Run,
    Settle,
    WriteScript,
    Compact,
    Index,
    Group,
    RunIndexed,
    SharedCheck,
    SharedValue,
    SharedRun,
    SharedSettle,
    Slot,
    SettleMap,
    MapReasons,
    WideFromNarrow,
    NarrowFromWide,
}

impl Call {
    pub const ALL: [Call; 26] = [
        Call::Check,
        Call::Value,
        Call::Reasons,
        Call::TruthVector,
        Call::Coefficients,
        Call::Vector,
        Call::WriteForm,
        Call::BestPolarity,
        Call::WriteTree,
        Call::WriteKronecker,
        Call::Run,
        Call::Settle,
        Call::WriteScript,
        Call::Compact,
        Call::Index,
        Call::Group,
        Call::RunIndexed,
        Call::SharedCheck,
        Call::SharedValue,
        Call::SharedRun,
        Call::SharedSettle,
        Call::Slot,
        Call::SettleMap,
        Call::MapReasons,
        Call::WideFromNarrow,
        Call::NarrowFromWide,
    ];

    /// Whether it takes a shared list.
    pub fn is_shared(self) -> bool {
        matches!(self, Call::SharedCheck | Call::SharedValue | Call::SharedRun | Call::SharedSettle)
    }

    /// Whether it takes a map of several lists.
    pub fn is_map(self) -> bool {
        matches!(self, Call::Slot | Call::SettleMap | Call::MapReasons)
    }
}

/// What goes into a call. Fields that a call does not take are left empty.
#[derive(Clone)]
pub struct Case {
    pub call: Call,
    pub n: u64,
    /// The list, old, shared or neither, the lists of a map, the truth vector or the coefficients.
    pub input: Vec<u8>,
    /// The lengths of a map's lists.
    pub lengths: Vec<u64>,
    /// The assignment, the polarity, the count or the number of literals.
    pub number: u64,
    /// The script, or the buffer for one, or the scripts of a map.
    pub script: Vec<u8>,
    /// The lengths of a map's scripts.
    pub script_lengths: Vec<u64>,
    /// The buffers as they are lent.
    pub work: Vec<u8>,
    /// The output, or the index.
    pub out: Vec<u8>,
    /// The starts of the index.
    pub starts: Starts,
    /// The numbers for each list of a map.
    pub numbers: PerList,
}

/// A call with nothing but a number of variables.
pub fn empty(call: Call, n: u64) -> Case {
    Case {
        call,
        n,
        input: vec![],
        lengths: vec![],
        number: 0,
        script: vec![],
        script_lengths: vec![],
        work: vec![],
        out: vec![],
        starts: starts::NONE,
        numbers: [0; MOST_LISTS],
    }
}

impl Case {
    /// The cubes of the list, without the bad ones.
    pub fn cubes(&self) -> Vec<Cube> {
        self.input.chunks(RECORD).filter_map(|record| decoded(self.n as usize, record)).collect()
    }

    /// The products of the shared list, without the bad ones.
    pub fn products(&self) -> Shared {
        let records = self.input.chunks_exact(SHARED_RECORD);
        records.filter_map(|record| shared::decoded(self.n as usize, record)).collect()
    }
}

/// What comes out of a call.
#[derive(PartialEq)]
pub struct After {
    pub answer: [u64; 8],
    pub script: Vec<u8>,
    pub work: Vec<u8>,
    pub out: Vec<u8>,
    pub starts: Starts,
    pub numbers: PerList,
}

/// Compares one case three ways: the library's words, its named answers, the model; reasons with value; a tree's list with its
/// vector and with the best polarity; a Kronecker form's with these and with all choices; a written script with its run; a compacted one with the given one and with itself
/// compacted; an index with its groups, a group with a search, a run with an index with the one without; the values of a shared list with those of
/// plain lists, and before a script with those after it; a map with its lists, each in a call of its own. Answers the words.
pub fn compare(case: &Case) -> Result<[u64; 8], String> {
    compared(case).map(|after| after.answer)
}

/// The same; answers the words and the buffers.
pub fn compared(case: &Case) -> Result<After, String> {
    let expected = by_model(case);
    let got = by_words(case).map_err(|touched| format!("{touched}\n{case}"))?;
    if got != expected {
        return Err(format!("library and model differ\n{case}\nlibrary:\n{got}\nmodel:\n{expected}"));
    }
    let mut named = by_names(case);
    if expected.answer[0] != 0 {
        // The wrapper hands no starts back, and no numbers.
        named.starts = expected.starts;
        named.numbers = expected.numbers;
    }
    if named != expected {
        return Err(format!("wrapper and model differ\n{case}\nwrapper:\n{named}\nmodel:\n{expected}"));
    }
    match case.call {
        Call::Reasons => beside_value(case, &expected.answer)?,
        Call::WriteTree => beside_vector(case, &expected)?,
        Call::WriteKronecker => beside_choices(case, &expected)?,
        Call::WriteScript => replay(case, &expected)?,
        Call::Compact => once_more(case, &expected)?,
        Call::Index => each_group(case, &expected)?,
        Call::Group => beside_search(case, &expected)?,
        Call::RunIndexed => beside_run(case, &expected)?,
        Call::SharedValue => beside_plain_values(case, &expected)?,
        Call::SharedRun | Call::SharedSettle => keeps_values(case, &expected)?,
        Call::Slot | Call::SettleMap | Call::MapReasons => beside_lists(case, &expected)?,
        _ => {}
    }
    Ok(expected)
}

/// Document 02, One: reasons answers the number and the bit that value answers, and refuses what value does, "then 5".
fn beside_value(case: &Case, reasons: &[u64; 8]) -> Result<(), String> {
    let value = compare(&Case { call: Call::Value, out: vec![], ..case.clone() })?;
    let agree = match (reasons, value) {
        ([0, 0, trues, bit, ..], [0, 0, ..]) => [*bit, *trues] == value[2..4],
        ([5, ..], [0, ..]) => true,
        _ => *reasons == value,
    };
    if agree { Ok(()) } else { Err(format!("reasons answers {reasons:?}, value {value:?}\n{case}")) }
}

impl fmt::Display for Case {
    fn fmt(&self, f: &mut fmt::Formatter) -> fmt::Result {
        let Case { call, n, number, .. } = self;
        writeln!(f, "call {call:?}, n {n}, assignment, polarity, count or number of literals {number}")?;
        for (name, bytes) in
            [("input", &self.input), ("script", &self.script), ("work", &self.work), ("out", &self.out)]
        {
            writeln!(f, "{name}, {} bytes: {}", bytes.len(), hex(bytes))?;
        }
        if call.is_map() {
            let Case { lengths, script_lengths, numbers, .. } = self;
            return writeln!(
                f,
                "lengths of lists {lengths:?}, of scripts {script_lengths:?}; a number for each list: {numbers:?}"
            );
        }
        writeln!(f, "starts: {:?}", self.starts)
    }
}

impl fmt::Display for After {
    fn fmt(&self, f: &mut fmt::Formatter) -> fmt::Result {
        writeln!(f, "answer {:?}", self.answer)?;
        writeln!(f, "script: {}", hex(&self.script))?;
        writeln!(f, "work: {}", hex(&self.work))?;
        writeln!(f, "out: {}", hex(&self.out))?;
        writeln!(f, "starts: {:?}", self.starts)?;
        writeln!(f, "a number for each list: {:?}", self.numbers)
    }
}

fn hex(bytes: &[u8]) -> String {
    bytes.iter().map(|byte| format!("{byte:02x}")).collect::<Vec<_>>().join(" ")
}
