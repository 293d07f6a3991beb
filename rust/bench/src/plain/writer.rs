//! Write script: the list is copied to the work buffer, and the first pair is looked for there, step after step, in either way.

use super::cube::{Cube, RECORD, VARIABLES, records};
use super::lists::{Records, STRIDE, checked};
use super::script::{STEP, STEPS, State};
use super::{Refusal, Words, refuse_if, words};

#[inline(never)]
pub fn write_script<S: Search>(n: u64, list: &[u8], work: &mut [u8], script: &mut [u8], answer: &mut Words) {
    *answer = words(try_write_script::<S>(n, list, work, script));
}

fn try_write_script<S: Search>(n: u64, list: &[u8], work: &mut [u8], script: &mut [u8]) -> Result<[u64; 2], Refusal> {
    let given = checked(n, VARIABLES, list)?;
    refuse_if(records(work).len() < given.len(), 5)?;
    refuse_if(script.len() < STEP * given.len().min(STEPS), 5)?;
    let (steps, _) = script.as_chunks_mut();
    let mut state = State::filled(given, work);
    let mut search = S::default();
    let mut written = 0;
    while let Some((i, j)) = search.first(state.list()) {
        if written == STEPS {
            return Ok([written as u64, 0]);
        }
        steps[written] = easy_step(state.list(), i, j);
        // It is as its cubes need, and not refused.
        state.step(&steps[written]).ok();
        search.go_on(i, j);
        written += 1;
    }
    Ok([written as u64, 1])
}

/// A drop of equal cubes, or a join.
fn easy_step(list: Records, i: usize, j: usize) -> [u8; STEP] {
    let op = if list[i] == list[j] { 1 } else { 2 };
    let ([i, i_high], [j, j_high]) = ((i as u16).to_le_bytes(), (j as u16).to_le_bytes());
    [op, 0, i, i_high, j, j_high, 0, 0]
}

/// A way to look for the first pair of a list, and of the lists that steps make of it.
pub trait Search: Default {
    fn first(&mut self, list: Records) -> Option<(usize, usize)>;

    /// After a step at i and j.
    fn go_on(&mut self, i: usize, j: usize);
}

/// From the front, each time.
#[derive(Default)]
pub struct FromTheFront;

impl Search for FromTheFront {
    fn first(&mut self, list: Records) -> Option<(usize, usize)> {
        (0..list.len()).find_map(|i| {
            let cube = Cube::read(&list[i]);
            (i + 1..list.len()).find(|&j| Cube::read(&list[j]).is_near(cube)).map(|j| (i, j))
        })
    }

    fn go_on(&mut self, _: usize, _: usize) {}
}

/// Every pair has `row` as its second place, or stands at a place from `row` on that has no mark.
pub struct ByMarks {
    /// 1 where there is no partner above.
    marks: [u8; 4096],
    row: usize,
}

impl Default for ByMarks {
    fn default() -> ByMarks {
        ByMarks { marks: [0; 4096], row: 0 }
    }
}

impl Search for ByMarks {
    fn first(&mut self, list: Records) -> Option<(usize, usize)> {
        if let Some(record) = list.get(self.row) {
            let i = near_from(&list[..self.row], Cube::read(record), 0);
            if i < self.row {
                return Some((i, self.row));
            }
        }
        for i in self.row..list.len() {
            if self.marks[i] == 0 {
                let j = near_from(list, Cube::read(&list[i]), i + 1);
                if j < list.len() {
                    return Some((i, j));
                }
                self.marks[i] = 1;
            }
        }
        None
    }

    fn go_on(&mut self, i: usize, j: usize) {
        self.marks[i] = 0;
        self.marks[j] = 0;
        self.row = i;
    }
}

/// The lowest place from `from` on whose cube is near, or else the length: by strides while none of a stride is near, then one
/// by one.
fn near_from(list: Records, cube: Cube, from: usize) -> usize {
    let mut place = from;
    while let Some(stride) = list[place..].first_chunk()
        && none_is_near(stride, cube)
    {
        place += STRIDE;
    }
    while place < list.len() && !Cube::read(&list[place]).is_near(cube) {
        place += 1;
    }
    place
}

/// No branch between the records.
fn none_is_near(stride: &[[u8; RECORD]; STRIDE], cube: Cube) -> bool {
    stride.iter().fold(true, |none, record| none & !Cube::read(record).is_near(cube))
}

/// Looks once at all pairs of a list, by strides; answers in how many strides and single records it found one.
#[inline(never)]
pub fn pass(list: &[u8]) -> usize {
    let (list, _) = list.as_chunks();
    let mut found = 0;
    for (i, record) in list.iter().enumerate() {
        let cube = Cube::read(record);
        let (strides, rest) = list[i + 1..].as_chunks();
        found += strides.iter().filter(|stride| !none_is_near(stride, cube)).count();
        found += rest.iter().filter(|record| Cube::read(record).is_near(cube)).count();
    }
    found
}
