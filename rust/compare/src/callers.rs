//! A case as a call of the model, of the library by its words, and of the wrapper by its names.

use crate::differ::{After, Call, Case};
use crate::lent::{Lent, LentWords};
use crate::map_callers::{answered_of_map, modelled_of_map, named_of_map};
use druthmoy::{Fixed, Index, Indexed, Kronecker, Refusal, Run, Settled, SharedSettled, Tree, Value, Written, words};
use model::calls::{self, Outcome};
use model::cube::PLACE;
use model::index::Starts;
use model::selector::PerList;

/// What a call may write to.
pub struct Buffers<'a> {
    pub script: &'a mut [u8],
    pub work: &'a mut [u8],
    pub out: &'a mut [u8],
    pub starts: &'a mut Starts,
    pub numbers: &'a mut PerList,
}

/// Makes a call on copies of a case's buffers.
fn on_copies(case: &Case, call: impl Fn(&Case, Buffers) -> [u64; 8]) -> After {
    let (mut script, mut work, mut out) = (case.script.clone(), case.work.clone(), case.out.clone());
    let (mut starts, mut numbers) = (case.starts, case.numbers);
    let on =
        Buffers { script: &mut script, work: &mut work, out: &mut out, starts: &mut starts, numbers: &mut numbers };
    let answer = call(case, on);
    After { answer, script, work, out, starts, numbers }
}

pub fn by_model(case: &Case) -> After {
    on_copies(case, |case, on| match case.call.is_map() {
        true => modelled_of_map(case, on),
        false => calls::words(&modelled(case, on)),
    })
}

fn modelled(case: &Case, on: Buffers) -> Outcome {
    let Case { n, input, number, .. } = case;
    let (n, number) = (*n, *number);
    let Buffers { script, work, out, starts, .. } = on;
    match case.call {
        Call::Check => calls::check(n, input),
        Call::Value => calls::value(n, input, number),
        Call::Reasons => calls::reasons(n, input, number, out),
        Call::TruthVector => calls::truth_vector(n, input, out),
        Call::Coefficients => calls::coefficients(n, input, number, out),
        Call::Vector => calls::vector(n, input, number, out),
        Call::WriteForm => calls::write_form(n, input, number, out),
        Call::BestPolarity => calls::best_polarity(n, input),
        Call::WriteTree => calls::write_tree(n, input, out),
        Call::WriteKronecker => calls::write_kronecker(n, input, out),
        Call::Run => calls::run(n, input, script, work),
        Call::Settle => calls::settle(n, input, script, work, out),
        Call::WriteScript => calls::write_script(n, input, work, script),
        Call::Compact => calls::compact(n, number, script, out),
        Call::Index => calls::index(n, input, out, starts),
        Call::Group => calls::group(n, input, out, starts, number),
        Call::RunIndexed => calls::run_indexed(n, input, script, work, out, starts),
        Call::SharedCheck => calls::shared_check(n, input),
        Call::SharedValue => calls::shared_value(n, input, number),
        Call::SharedRun => calls::shared_run(n, input, script, work),
        Call::SharedSettle => calls::shared_settle(n, input, script, work, out),
        Call::WideFromNarrow => calls::wide_from_narrow(n, input, out),
        Call::NarrowFromWide => calls::narrow_from_wide(n, input, out),
        Call::Slot | Call::SettleMap | Call::MapReasons => unreachable!("a call of a map"),
    }
}

/// The library's own words, on buffers that stand between margins; what it must not touch is looked at.
pub fn by_words(case: &Case) -> Result<After, String> {
    let mut input = Lent::new(&case.input);
    let mut script = Lent::new(&case.script);
    let (mut work, mut out) = (Lent::new(&case.work), Lent::new(&case.out));
    let (mut starts, mut numbers) = (LentWords::new(&case.starts), LentWords::new(&case.numbers));
    let mut lengths = [&case.lengths, &case.script_lengths].map(|lengths| LentWords::new(lengths));
    let on = Buffers {
        script: script.slice(),
        work: work.slice(),
        out: out.slice(),
        starts: starts.array(),
        numbers: numbers.array(),
    };
    let answer = match case.call.is_map() {
        true => answered_of_map(case, input.slice(), lengths.each_mut().map(|lengths| &*lengths.slice()), on),
        false => answered(case, input.slice(), on),
    };
    let reads_script = case.call != Call::WriteScript;
    let [of_lists, of_scripts] = lengths.each_mut().map(|lengths| lengths.slice());
    if *input.slice() != case.input[..]
        || reads_script && *script.slice() != case.script[..]
        || *of_lists != case.lengths[..]
        || *of_scripts != case.script_lengths[..]
    {
        return Err("the library wrote to a buffer that it reads".into());
    }
    let whole = [&input, &script, &work, &out].iter().all(|lent| lent.margins_are_whole());
    let [of_lists, of_scripts] = &lengths;
    if !whole || ![&starts, &numbers, of_lists, of_scripts].iter().all(|lent| lent.margins_are_whole()) {
        return Err("the library wrote outside a buffer".into());
    }
    let [script, work, out] = [script, work, out].map(|mut lent| lent.slice().to_vec());
    Ok(After { answer, script, work, out, starts: *starts.array(), numbers: *numbers.array() })
}

fn answered(case: &Case, input: &[u8], on: Buffers) -> words::Words {
    let (n, number) = (case.n, case.number);
    let Buffers { script, work, out, starts, .. } = on;
    match case.call {
        Call::Check => words::check(n, input),
        Call::Value => words::value(n, input, number),
        Call::Reasons => words::reasons(n, input, number, out),
        Call::TruthVector => words::truth_vector(n, input, out),
        Call::Coefficients => words::coefficients(n, input, number, out),
        Call::Vector => words::vector(n, input, number, out),
        Call::WriteForm => words::write_form(n, input, number, out),
        Call::BestPolarity => words::best_polarity(n, input),
        Call::WriteTree => words::write_tree(n, input, out),
        Call::WriteKronecker => words::write_kronecker(n, input, out),
        Call::Run => words::run(n, input, script, work),
        Call::Settle => words::settle(n, input, script, work, out),
        Call::WriteScript => words::write_script(n, input, work, script),
        Call::Compact => words::compact(n, number, script, out),
        Call::Index => words::index(n, input, out, starts),
        Call::Group => words::group(n, input, out, starts, number),
        Call::RunIndexed => words::run_indexed(n, input, script, work, out, starts),
        Call::SharedCheck => words::shared_check(n, input),
        Call::SharedValue => words::shared_value(n, input, number),
        Call::SharedRun => words::shared_run(n, input, script, work),
        Call::SharedSettle => words::shared_settle(n, input, script, work, out),
        Call::WideFromNarrow => words::wide_from_narrow(n, input, out),
        Call::NarrowFromWide => words::narrow_from_wide(n, input, out),
        Call::Slot | Call::SettleMap | Call::MapReasons => unreachable!("a call of a map"),
    }
}

/// The wrapper's enums, put back into words.
pub fn by_names(case: &Case) -> After {
    on_copies(case, |case, on| {
        if case.call.is_map() {
            return named_of_map(case, on);
        }
        let mut answer = [0; 8];
        let named = match case.call {
            Call::Index | Call::Group | Call::RunIndexed => named_of_index(case, on),
            call if call.is_shared() => named_of_shared(case, on),
            _ => named(case, on),
        };
        match named {
            Ok(values) => answer[2..2 + values.len()].copy_from_slice(&values),
            Err(refusal) => answer[..3].copy_from_slice(&[refusal.fault.number(), refusal.place, refusal.differing]),
        }
        answer
    })
}

fn named(case: &Case, on: Buffers) -> Result<Vec<u64>, Refusal> {
    let Case { n, input, number, .. } = case;
    let (n, number) = (*n, *number);
    let Buffers { script, work, out, .. } = on;
    let one = |value: u64| vec![value];
    match case.call {
        Call::Check => druthmoy::check(n, input).map(one),
        Call::Value => druthmoy::value(n, input, number).map(|Value { bit, trues }| vec![bit as u64, trues]),
        Call::Reasons => druthmoy::reasons(n, input, number, out).map(|Value { bit, trues }| vec![trues, bit as u64]),
        Call::TruthVector => druthmoy::truth_vector(n, input, out).map(one),
        Call::Coefficients => druthmoy::coefficients(n, input, number, out).map(one),
        Call::Vector => druthmoy::vector(n, input, number, out).map(one),
        Call::WriteForm => druthmoy::write_form(n, input, number, out).map(one),
        Call::BestPolarity => druthmoy::best_polarity(n, input).map(|Fixed { polarity, size }| vec![polarity, size]),
        Call::WriteTree => druthmoy::write_tree(n, input, out).map(|Tree { products, cost }| vec![products, cost]),
        Call::WriteKronecker => druthmoy::write_kronecker(n, input, out)
            .map(|Kronecker { cost, choice, products }| vec![cost, choice, products]),
        Call::Run => druthmoy::run(n, input, script, work).map(|Run { count, peak }| vec![count, peak]),
        Call::Settle => druthmoy::settle(n, input, script, work, out).map(settled),
        Call::WriteScript => druthmoy::write_script(n, input, work, script)
            .map(|Written { steps, finished }| vec![steps, finished as u64]),
        Call::Compact => druthmoy::compact(n, number, script, out).map(one),
        Call::WideFromNarrow => druthmoy::wide_from_narrow(n, input, out).map(one),
        Call::NarrowFromWide => druthmoy::narrow_from_wide(n, input, out).map(one),
        _ => unreachable!("a call of an index, of a shared list or of a map"),
    }
}

fn settled(Settled { given, peak, script, fixed, burned }: Settled) -> Vec<u64> {
    let (polarity, size) = fixed.map_or((u64::MAX, u64::MAX), |fixed| (fixed.polarity, fixed.size));
    vec![given, peak, script, polarity, size, burned]
}

/// The calls of an index. A run of it is found again by where it stands in the buffer.
fn named_of_index(case: &Case, on: Buffers) -> Result<Vec<u64>, Refusal> {
    let Case { n, input, number, .. } = case;
    let Buffers { script, work, out, starts, .. } = on;
    match case.call {
        Call::Index => {
            let Index { count, starts: built } = druthmoy::index(*n, input, out)?;
            *starts = built;
            Ok(vec![count])
        }
        Call::Group => {
            let run = druthmoy::group(*n, input, out, starts, *number)?;
            let start = run.as_ptr() as usize - out.as_ptr() as usize;
            Ok([run.len(), start].map(|bytes| (bytes / PLACE) as u64).to_vec())
        }
        _ => {
            let Indexed { run, starts: kept } = druthmoy::run_indexed(*n, input, script, work, out)?;
            *starts = kept;
            Ok(vec![run.count, run.peak])
        }
    }
}

fn named_of_shared(case: &Case, on: Buffers) -> Result<Vec<u64>, Refusal> {
    let Case { n, input, number, .. } = case;
    let Buffers { script, work, out, .. } = on;
    match case.call {
        Call::SharedCheck => druthmoy::shared_check(*n, input).map(|count| vec![count]),
        Call::SharedValue => druthmoy::shared_value(*n, input, *number).map(|word| vec![word.into()]),
        Call::SharedRun => druthmoy::shared_run(*n, input, script, work).map(|Run { count, peak }| vec![count, peak]),
        _ => {
            let settled = druthmoy::shared_settle(*n, input, script, work, out)?;
            let SharedSettled { given, peak, script, burned } = settled;
            Ok(vec![given, peak, script, burned])
        }
    }
}
