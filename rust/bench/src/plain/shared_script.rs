//! Run and settle of a shared list: as for a list, on records that have outputs.

use super::orders::{self, NONE, Pending, after_exchange, exchange};
use super::script::{
    Done, STEP, StepRefusal, checked_steps, dropped, halves, is_well_formed, joined, place, refuse, turned,
};
use super::shared_lists::{Product, SHARED_RECORD, SharedRecords, checked, records};
use super::{Refusal, Words, refuse_if, words};

#[inline(never)]
pub fn shared_run(n: u64, list: &[u8], script: &[u8], work: &mut [u8], answer: &mut Words) {
    *answer = words(try_run(n, list, script, work).map(|done| [done.count as u64, done.peak as u64]));
}

#[inline(never)]
pub fn shared_settle(n: u64, list: &[u8], script: &[u8], work: &mut [u8], out: &mut [u8], answer: &mut Words) {
    *answer = words(try_settle(n, list, script, work, out));
}

fn try_run(n: u64, list: &[u8], script: &[u8], work: &mut [u8]) -> Result<Done, Refusal> {
    let given = checked(n, list)?;
    refuse_if(records(work).len() < given.len(), 5)?;
    let steps = checked_script(n, script)?;
    run_in(given, steps, work)
}

fn try_settle(n: u64, list: &[u8], script: &[u8], work: &mut [u8], out: &mut [u8]) -> Result<[u64; 4], Refusal> {
    let given = checked(n, list)?;
    refuse_if(records(work).len() < given.len(), 5)?;
    refuse_if(records(out).len() < given.len(), 5)?;
    let steps = checked_script(n, script)?;
    let done = run_in(given, steps, work)?;
    let burned = if done.count <= given.len() { &work[..done.count * SHARED_RECORD] } else { list };
    let (front, rest) = out.split_at_mut(burned.len());
    front.copy_from_slice(burned);
    rest.fill(0);
    let burned = burned.len() / SHARED_RECORD;
    work.fill(0);
    Ok([given.len(), done.peak, done.count, burned].map(|count| count as u64))
}

/// Rules 7 to 9.
fn checked_script(n: u64, script: &[u8]) -> Result<&[[u8; STEP]], Refusal> {
    let is_merge = |&[op, v, _, _, _, _, literal, zero]: &[u8; STEP]| op == 6 && v == 0 && literal == 0 && zero == 0;
    checked_steps(script, |step| is_merge(step) || is_well_formed(n, step))
}

/// Runs steps that are well-formed, in a work buffer that holds the given list. A refusal leaves it zero.
fn run_in(given: SharedRecords, steps: &[[u8; STEP]], work: &mut [u8]) -> Result<Done, Refusal> {
    let mut state = State::filled(given, work);
    for (place, step) in steps.iter().enumerate() {
        if let Err(StepRefusal { number, differing }) = state.step(step) {
            work.fill(0);
            return Err(Refusal { number, place, differing });
        }
    }
    Ok(state.undone())
}

struct State<'a> {
    records: &'a mut [[u8; SHARED_RECORD]],
    count: usize,
    peak: usize,
    pending: Pending,
}

impl State<'_> {
    fn filled<'a>(given: SharedRecords, work: &'a mut [u8]) -> State<'a> {
        let (front, rest) = work.split_at_mut(given.len() * SHARED_RECORD);
        front.copy_from_slice(given.as_flattened());
        rest.fill(0);
        let count = given.len();
        State { records: records(work), count, peak: count, pending: [NONE; 32] }
    }

    fn undone(&mut self) -> Done {
        orders::undo(&mut self.records[..self.count], &self.pending);
        Done { count: self.count, peak: self.peak }
    }

    #[inline(always)]
    fn step(&mut self, step: &[u8; STEP]) -> Result<(), StepRefusal> {
        let &[op, v, _, _, _, _, literal, _] = step;
        let (v, i, j) = (v as u32, place(step, 2), place(step, 4));
        match op {
            1 => self.drop(i, j),
            2 => self.join(i, j),
            3 => self.split(v, i),
            4 => self.turn(v, i, j),
            6 => self.merge(i, j),
            _ => {
                exchange(&mut self.records[..self.count], v, literal);
                self.pending[v as usize] = after_exchange(self.pending[v as usize], literal);
                Ok(())
            }
        }
    }

    #[inline(always)]
    fn drop(&mut self, i: usize, j: usize) -> Result<(), StepRefusal> {
        let (a, b) = self.pair(i, j)?;
        dropped(a.cube, b.cube)?;
        equal(a, b)?;
        self.remove(i.max(j));
        self.remove(i.min(j));
        Ok(())
    }

    #[inline(always)]
    fn join(&mut self, i: usize, j: usize) -> Result<(), StepRefusal> {
        let (a, b) = self.pair(i, j)?;
        let cube = joined(a.cube, b.cube)?;
        equal(a, b)?;
        self.write(i, Product { cube, ..a });
        self.remove(j);
        Ok(())
    }

    #[inline(always)]
    fn split(&mut self, v: u32, i: usize) -> Result<(), StepRefusal> {
        if i >= self.count {
            return refuse(10);
        }
        if self.count == self.records.len() {
            return refuse(13);
        }
        let product = self.read(i);
        let (lower, higher) = halves(product.cube, v);
        self.write(i, Product { cube: lower, ..product });
        self.write(self.count, Product { cube: higher, ..product });
        self.count += 1;
        self.peak = self.peak.max(self.count);
        Ok(())
    }

    #[inline(always)]
    fn turn(&mut self, v: u32, i: usize, j: usize) -> Result<(), StepRefusal> {
        let (a, b) = self.pair(i, j)?;
        let (first, second) = turned(v, a.cube, b.cube)?;
        equal(a, b)?;
        self.write(i, Product { cube: first, ..a });
        self.write(j, Product { cube: second, ..b });
        Ok(())
    }

    #[inline(always)]
    fn merge(&mut self, i: usize, j: usize) -> Result<(), StepRefusal> {
        let (a, b) = self.pair(i, j)?;
        if a.cube != b.cube || a.outputs == b.outputs {
            return refuse(23);
        }
        self.write(i, Product { outputs: a.outputs ^ b.outputs, ..a });
        self.remove(j);
        Ok(())
    }

    #[inline(always)]
    fn pair(&self, i: usize, j: usize) -> Result<(Product, Product), StepRefusal> {
        if i >= self.count || j >= self.count {
            return refuse(10);
        }
        if i == j {
            return refuse(11);
        }
        Ok((self.read(i), self.read(j)))
    }

    #[inline(always)]
    fn read(&self, place: usize) -> Product {
        Product::read(&self.records[place])
    }

    fn write(&mut self, place: usize, product: Product) {
        product.store(&mut self.records[place]);
    }

    #[inline(always)]
    fn remove(&mut self, place: usize) {
        self.count -= 1;
        self.records[place] = self.records[self.count];
        self.records[self.count] = [0; SHARED_RECORD];
    }
}

/// The outputs of two products are equal.
#[inline(always)]
fn equal(a: Product, b: Product) -> Result<(), StepRefusal> {
    if a.outputs != b.outputs { refuse(22) } else { Ok(()) }
}
