//! Run: the list is copied to the work buffer, where steps are O(1) by masks and an L step is one pass.

use super::cube::{Cube, RECORD, VARIABLES, records, third};
use super::lists::{Records, checked};
use super::orders::{self, NONE, Pending, after_exchange, exchange};
use super::{Refusal, Words, refusal, refuse_if, words};

pub const STEP: usize = 8;

/// Steps of a script, at most.
pub const STEPS: usize = 1024;

#[inline(never)]
pub fn run(n: u64, list: &[u8], script: &[u8], work: &mut [u8], answer: &mut Words) {
    *answer = words(try_run(n, list, script, work).map(|done| [done.count as u64, done.peak as u64]));
}

pub struct Done {
    pub count: usize,
    pub peak: usize,
}

fn try_run(n: u64, list: &[u8], script: &[u8], work: &mut [u8]) -> Result<Done, Refusal> {
    let given = checked(n, VARIABLES, list)?;
    refuse_if(records(work).len() < given.len(), 5)?;
    let steps = checked_script(n, script)?;
    run_in(given, steps, work)
}

/// Rules 7 to 9.
pub fn checked_script(n: u64, script: &[u8]) -> Result<&[[u8; STEP]], Refusal> {
    checked_steps(script, |step| is_well_formed(n, step))
}

/// The same, with another rule 9.
#[inline]
pub fn checked_steps(script: &[u8], is_well_formed: impl Fn(&[u8; STEP]) -> bool) -> Result<&[[u8; STEP]], Refusal> {
    let (steps, rest) = script.as_chunks();
    refuse_if(!rest.is_empty(), 7)?;
    refuse_if(steps.len() > STEPS, 8)?;
    match steps.iter().position(|step| !is_well_formed(step)) {
        Some(place) => refusal(9, place),
        None => Ok(steps),
    }
}

/// Runs steps that are well-formed, in a work buffer that holds the given list. A refusal leaves it zero.
pub fn run_in(given: Records, steps: &[[u8; STEP]], work: &mut [u8]) -> Result<Done, Refusal> {
    let mut state = State::filled(given, work);
    for (place, step) in steps.iter().enumerate() {
        if let Err(StepRefusal { number, differing }) = state.step(step) {
            work.fill(0);
            return Err(Refusal { number, place, differing });
        }
    }
    Ok(state.undone())
}

/// Why a step is refused: the number; and the number of differing variables, where its two cubes are not as it needs.
pub struct StepRefusal {
    pub number: u64,
    pub differing: u32,
}

pub fn refuse<T>(number: u64) -> Result<T, StepRefusal> {
    Err(StepRefusal { number, differing: 0 })
}

fn unfit<T>(number: u64, apart: u32) -> Result<T, StepRefusal> {
    Err(StepRefusal { number, differing: apart.count_ones() })
}

/// The two cubes of a drop are equal.
#[inline(always)]
pub fn dropped(a: Cube, b: Cube) -> Result<(), StepRefusal> {
    let apart = a.differing(b);
    if apart != 0 { unfit(16, apart) } else { Ok(()) }
}

/// The cube that a join leaves.
#[inline(always)]
pub fn joined(a: Cube, b: Cube) -> Result<Cube, StepRefusal> {
    let apart = a.differing(b);
    if apart.count_ones() != 1 {
        return unfit(17, apart);
    }
    let v = apart.trailing_zeros();
    Ok(a.put(v, third(a.code(v), b.code(v))))
}

/// The lower half of a cube, which stays, and the higher one, which is appended.
#[inline(always)]
pub fn halves(cube: Cube, v: u32) -> (Cube, Cube) {
    let (lower, higher) = [(1, 2), (0, 2), (0, 1)][cube.code(v) as usize];
    (cube.put(v, lower), cube.put(v, higher))
}

/// The two cubes that a turn leaves.
#[inline(always)]
pub fn turned(v: u32, a: Cube, b: Cube) -> Result<(Cube, Cube), StepRefusal> {
    let apart = a.differing(b);
    if apart.count_ones() != 2 {
        return unfit(18, apart);
    }
    if apart >> v & 1 == 0 {
        return unfit(19, apart);
    }
    let other = (apart & !(1 << v)).trailing_zeros();
    Ok((a.put(v, third(a.code(v), b.code(v))), b.put(other, third(a.code(other), b.code(other)))))
}

pub struct State<'a> {
    records: &'a mut [[u8; RECORD]],
    count: usize,
    peak: usize,
    pending: Pending,
}

impl State<'_> {
    /// The given list at the front of a work buffer that holds it, and zeros after it.
    #[inline]
    pub fn filled<'a>(given: Records, work: &'a mut [u8]) -> State<'a> {
        let (front, rest) = work.split_at_mut(given.len() * RECORD);
        front.copy_from_slice(given.as_flattened());
        rest.fill(0);
        let count = given.len();
        State { records: records(work), count, peak: count, pending: [NONE; VARIABLES as usize] }
    }

    pub fn list(&self) -> Records<'_> {
        &self.records[..self.count]
    }

    /// Undoes the L steps.
    pub fn undone(&mut self) -> Done {
        orders::undo(&mut self.records[..self.count], &self.pending);
        Done { count: self.count, peak: self.peak }
    }

    #[inline(always)]
    pub fn step(&mut self, step: &[u8; STEP]) -> Result<(), StepRefusal> {
        let &[op, v, _, _, _, _, literal, _] = step;
        let (v, i, j) = (v as u32, place(step, 2), place(step, 4));
        match op {
            1 => self.drop(i, j),
            2 => self.join(i, j),
            3 => self.split(v, i),
            4 => self.turn(v, i, j),
            _ => {
                exchange(&mut self.records[..self.count], v, literal);
                self.pending[v as usize] = after_exchange(self.pending[v as usize], literal);
                Ok(())
            }
        }
    }

    #[inline(always)]
    fn drop(&mut self, i: usize, j: usize) -> Result<(), StepRefusal> {
        let (a, b) = self.pair(i, j)?;
        dropped(a, b)?;
        self.remove(i.max(j));
        self.remove(i.min(j));
        Ok(())
    }

    #[inline(always)]
    fn join(&mut self, i: usize, j: usize) -> Result<(), StepRefusal> {
        let (a, b) = self.pair(i, j)?;
        self.write(i, joined(a, b)?);
        self.remove(j);
        Ok(())
    }

    #[inline(always)]
    fn split(&mut self, v: u32, i: usize) -> Result<(), StepRefusal> {
        if i >= self.count {
            return refuse(10);
        }
        if self.count == self.records.len() {
            return refuse(13);
        }
        let (lower, higher) = halves(self.read(i), v);
        self.write(i, lower);
        self.write(self.count, higher);
        self.count += 1;
        self.peak = self.peak.max(self.count);
        Ok(())
    }

    #[inline(always)]
    fn turn(&mut self, v: u32, i: usize, j: usize) -> Result<(), StepRefusal> {
        let (a, b) = self.pair(i, j)?;
        let (a, b) = turned(v, a, b)?;
        self.write(i, a);
        self.write(j, b);
        Ok(())
    }

    #[inline(always)]
    fn pair(&self, i: usize, j: usize) -> Result<(Cube, Cube), StepRefusal> {
        if i >= self.count || j >= self.count {
            return refuse(10);
        }
        if i == j {
            return refuse(11);
        }
        Ok((self.read(i), self.read(j)))
    }

    #[inline(always)]
    fn read(&self, place: usize) -> Cube {
        Cube::read(&self.records[place])
    }

    fn write(&mut self, place: usize, cube: Cube) {
        cube.store(&mut self.records[place]);
    }

    #[inline(always)]
    fn remove(&mut self, place: usize) {
        self.count -= 1;
        self.records[place] = self.records[self.count];
        self.records[self.count] = [0; RECORD];
    }
}

pub fn place(step: &[u8; STEP], at: usize) -> usize {
    u16::from_le_bytes([step[at], step[at + 1]]) as usize
}

pub fn is_well_formed(n: u64, step: &[u8; STEP]) -> bool {
    let &[op, v, _, _, _, _, literal, zero] = step;
    let (i, j) = (place(step, 2), place(step, 4));
    zero == 0
        && match op {
            1 | 2 => v == 0 && literal == 0,
            3 => u64::from(v) < n && j == 0 && literal == 0,
            4 => u64::from(v) < n && literal == 0,
            5 => u64::from(v) < n && i == 0 && j == 0 && literal <= 1,
            _ => false,
        }
}
