//! Run indexed: the steps of run, and after each of them, and after the undoing, the index is written anew. Behind its entries bytes are cleared
//! only where the list has become shorter.

use super::cube::{VARIABLES, records};
use super::index::{Entries, PLACE, Starts, Way};
use super::lists::{Records, checked};
use super::script::{Done, STEP, State, StepRefusal, checked_script};
use super::{Refusal, Words, refuse_if, words};

#[inline(never)]
pub fn run_indexed<W: Way>(
    n: u64,
    list: &[u8],
    script: &[u8],
    work: &mut [u8],
    index: &mut [u8],
    starts: &mut Starts,
    answer: &mut Words,
) {
    let outcome = try_run::<W>(n, list, script, work, index, starts);
    *answer = words(outcome.map(|done| [done.count as u64, done.peak as u64]));
}

fn try_run<W: Way>(
    n: u64,
    list: &[u8],
    script: &[u8],
    work: &mut [u8],
    index: &mut [u8],
    starts: &mut Starts,
) -> Result<Done, Refusal> {
    let given = checked(n, VARIABLES, list)?;
    let capacity = records(work).len();
    refuse_if(capacity < given.len(), 5)?;
    refuse_if(index.len() < PLACE * capacity, 5)?;
    let steps = checked_script(n, script)?;
    run_in::<W>(given, steps, work, index, starts)
}

fn run_in<W: Way>(
    given: Records,
    steps: &[[u8; STEP]],
    work: &mut [u8],
    index: &mut [u8],
    starts: &mut Starts,
) -> Result<Done, Refusal> {
    let mut state = State::filled(given, work);
    index.fill(0);
    rewrite::<W>(state.list(), 0, index.as_chunks_mut().0);
    for (place, step) in steps.iter().enumerate() {
        let old = state.list().len();
        if let Err(StepRefusal { number, differing }) = state.step(step) {
            work.fill(0);
            index.fill(0);
            starts.fill(0);
            return Err(Refusal { number, place, differing });
        }
        rewrite::<W>(state.list(), old, index.as_chunks_mut().0);
    }
    let done = state.undone();
    *starts = rewrite::<W>(state.list(), done.count, index.as_chunks_mut().0);
    Ok(done)
}

/// The index of a list, where entries of so many records stand.
#[inline]
fn rewrite<W: Way>(list: Records, old: usize, entries: Entries) -> Starts {
    let starts = W::write(list, entries);
    if list.len() < old {
        entries[list.len()..old].fill([0; PLACE]);
    }
    starts
}
