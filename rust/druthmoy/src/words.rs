//! The calls over slices, with the eight words of an answer as they are: refusal number, place, values, zeros. A refusal
//! has one value, the number of differing variables, and of a map a second one, the list's number.

use crate::raw;
use crate::records::{Parts, PerList, Starts};

/// The answer of a call; see `druthmoy.h`.
pub type Words = [u64; 8];

/// What stands in an answer before the call: the library fills every word.
const UNANSWERED: Words = [u64::MAX; 8];

// SAFETY, for each call below: a slice gives a pointer that is not null and as many bytes as its length says; the
// borrow rules keep what is written apart from every other argument; `answer` has eight words, `starts` thirty-three, a number for each
// list twelve. The library reads and writes within these, and keeps none of the pointers.

#[inline]
pub fn check(n: u64, list: &[u8]) -> Words {
    let mut answer = UNANSWERED;
    unsafe { raw::dm_check(n, list.as_ptr(), list.len(), answer.as_mut_ptr()) };
    answer
}

#[inline]
pub fn value(n: u64, list: &[u8], a: u64) -> Words {
    let mut answer = UNANSWERED;
    unsafe { raw::dm_value(n, list.as_ptr(), list.len(), a, answer.as_mut_ptr()) };
    answer
}

#[inline]
pub fn reasons(n: u64, list: &[u8], a: u64, out: &mut [u8]) -> Words {
    let mut answer = UNANSWERED;
    unsafe {
        raw::dm_reasons(n, list.as_ptr(), list.len(), a, out.as_mut_ptr(), out.len(), answer.as_mut_ptr());
    }
    answer
}

#[inline]
pub fn truth_vector(n: u64, list: &[u8], out: &mut [u8]) -> Words {
    let mut answer = UNANSWERED;
    unsafe {
        raw::dm_truth_vector(n, list.as_ptr(), list.len(), out.as_mut_ptr(), out.len(), answer.as_mut_ptr());
    }
    answer
}

#[inline]
pub fn coefficients(n: u64, vector: &[u8], p: u64, out: &mut [u8]) -> Words {
    let mut answer = UNANSWERED;
    unsafe {
        raw::dm_coefficients(n, vector.as_ptr(), vector.len(), p, out.as_mut_ptr(), out.len(), answer.as_mut_ptr());
    }
    answer
}

#[inline]
pub fn vector(n: u64, coefficients: &[u8], p: u64, out: &mut [u8]) -> Words {
    let mut answer = UNANSWERED;
    let (from, length) = (coefficients.as_ptr(), coefficients.len());
    unsafe { raw::dm_vector(n, from, length, p, out.as_mut_ptr(), out.len(), answer.as_mut_ptr()) };
    answer
}

#[inline]
pub fn write_form(n: u64, coefficients: &[u8], p: u64, out: &mut [u8]) -> Words {
    let mut answer = UNANSWERED;
    let (from, length) = (coefficients.as_ptr(), coefficients.len());
    unsafe { raw::dm_write_form(n, from, length, p, out.as_mut_ptr(), out.len(), answer.as_mut_ptr()) };
    answer
}

#[inline]
pub fn best_polarity(n: u64, vector: &[u8]) -> Words {
    let mut answer = UNANSWERED;
    unsafe { raw::dm_best_polarity(n, vector.as_ptr(), vector.len(), answer.as_mut_ptr()) };
    answer
}

#[inline]
pub fn write_tree(n: u64, vector: &[u8], out: &mut [u8]) -> Words {
    let mut answer = UNANSWERED;
    unsafe {
        raw::dm_write_tree(n, vector.as_ptr(), vector.len(), out.as_mut_ptr(), out.len(), answer.as_mut_ptr());
    }
    answer
}

#[inline]
pub fn write_kronecker(n: u64, vector: &[u8], out: &mut [u8]) -> Words {
    let mut answer = UNANSWERED;
    unsafe {
        raw::dm_write_kronecker(n, vector.as_ptr(), vector.len(), out.as_mut_ptr(), out.len(), answer.as_mut_ptr());
    }
    answer
}

#[inline]
pub fn run(n: u64, list: &[u8], script: &[u8], work: &mut [u8]) -> Words {
    let mut answer = UNANSWERED;
    unsafe {
        raw::dm_run(
            n,
            list.as_ptr(),
            list.len(),
            script.as_ptr(),
            script.len(),
            work.as_mut_ptr(),
            work.len(),
            answer.as_mut_ptr(),
        );
    }
    answer
}

#[inline]
pub fn settle(n: u64, list: &[u8], script: &[u8], work: &mut [u8], out: &mut [u8]) -> Words {
    let mut answer = UNANSWERED;
    unsafe {
        raw::dm_settle(
            n,
            list.as_ptr(),
            list.len(),
            script.as_ptr(),
            script.len(),
            work.as_mut_ptr(),
            work.len(),
            out.as_mut_ptr(),
            out.len(),
            answer.as_mut_ptr(),
        );
    }
    answer
}

#[inline]
pub fn write_script(n: u64, list: &[u8], work: &mut [u8], script: &mut [u8]) -> Words {
    let mut answer = UNANSWERED;
    unsafe {
        raw::dm_write_script(
            n,
            list.as_ptr(),
            list.len(),
            work.as_mut_ptr(),
            work.len(),
            script.as_mut_ptr(),
            script.len(),
            answer.as_mut_ptr(),
        );
    }
    answer
}

#[inline]
pub fn compact(n: u64, count: u64, script: &[u8], out: &mut [u8]) -> Words {
    let mut answer = UNANSWERED;
    unsafe {
        raw::dm_compact(n, count, script.as_ptr(), script.len(), out.as_mut_ptr(), out.len(), answer.as_mut_ptr());
    }
    answer
}

#[inline]
pub fn index(n: u64, list: &[u8], index: &mut [u8], starts: &mut Starts) -> Words {
    let mut answer = UNANSWERED;
    unsafe {
        raw::dm_index(
            n,
            list.as_ptr(),
            list.len(),
            index.as_mut_ptr(),
            index.len(),
            starts.as_mut_ptr(),
            answer.as_mut_ptr(),
        );
    }
    answer
}

#[inline]
pub fn group(n: u64, list: &[u8], index: &[u8], starts: &Starts, number: u64) -> Words {
    let mut answer = UNANSWERED;
    unsafe {
        raw::dm_group(
            n,
            list.as_ptr(),
            list.len(),
            index.as_ptr(),
            index.len(),
            starts.as_ptr(),
            number,
            answer.as_mut_ptr(),
        );
    }
    answer
}

#[inline]
pub fn run_indexed(
    n: u64,
    list: &[u8],
    script: &[u8],
    work: &mut [u8],
    index: &mut [u8],
    starts: &mut Starts,
) -> Words {
    let mut answer = UNANSWERED;
    unsafe {
        raw::dm_run_indexed(
            n,
            list.as_ptr(),
            list.len(),
            script.as_ptr(),
            script.len(),
            work.as_mut_ptr(),
            work.len(),
            index.as_mut_ptr(),
            index.len(),
            starts.as_mut_ptr(),
            answer.as_mut_ptr(),
        );
    }
    answer
}

#[inline]
pub fn shared_check(n: u64, list: &[u8]) -> Words {
    let mut answer = UNANSWERED;
    unsafe { raw::dm_shared_check(n, list.as_ptr(), list.len(), answer.as_mut_ptr()) };
    answer
}

#[inline]
pub fn shared_value(n: u64, list: &[u8], a: u64) -> Words {
    let mut answer = UNANSWERED;
    unsafe { raw::dm_shared_value(n, list.as_ptr(), list.len(), a, answer.as_mut_ptr()) };
    answer
}

#[inline]
pub fn shared_run(n: u64, list: &[u8], script: &[u8], work: &mut [u8]) -> Words {
    let mut answer = UNANSWERED;
    unsafe {
        raw::dm_shared_run(
            n,
            list.as_ptr(),
            list.len(),
            script.as_ptr(),
            script.len(),
            work.as_mut_ptr(),
            work.len(),
            answer.as_mut_ptr(),
        );
    }
    answer
}

#[inline]
pub fn shared_settle(n: u64, list: &[u8], script: &[u8], work: &mut [u8], out: &mut [u8]) -> Words {
    let mut answer = UNANSWERED;
    unsafe {
        raw::dm_shared_settle(
            n,
            list.as_ptr(),
            list.len(),
            script.as_ptr(),
            script.len(),
            work.as_mut_ptr(),
            work.len(),
            out.as_mut_ptr(),
            out.len(),
            answer.as_mut_ptr(),
        );
    }
    answer
}

#[inline]
pub fn slot(n: u64, lists: Parts, a: u64) -> Words {
    let mut answer = UNANSWERED;
    let Parts { bytes, lengths } = lists;
    unsafe {
        raw::dm_slot(n, bytes.as_ptr(), bytes.len(), lengths.as_ptr(), lengths.len(), a, answer.as_mut_ptr());
    }
    answer
}

#[inline]
pub fn settle_map(
    n: u64,
    lists: Parts,
    scripts: Parts,
    work: &mut [u8],
    out: &mut [u8],
    burned_lengths: &mut PerList,
) -> Words {
    let mut answer = UNANSWERED;
    unsafe {
        raw::dm_settle_map(
            n,
            lists.bytes.as_ptr(),
            lists.bytes.len(),
            lists.lengths.as_ptr(),
            lists.lengths.len(),
            scripts.bytes.as_ptr(),
            scripts.bytes.len(),
            scripts.lengths.as_ptr(),
            scripts.lengths.len(),
            work.as_mut_ptr(),
            work.len(),
            out.as_mut_ptr(),
            out.len(),
            burned_lengths.as_mut_ptr(),
            answer.as_mut_ptr(),
        );
    }
    answer
}

#[inline]
pub fn map_reasons(n: u64, lists: Parts, a: u64, out: &mut [u8], numbers: &mut PerList) -> Words {
    let mut answer = UNANSWERED;
    let Parts { bytes, lengths } = lists;
    unsafe {
        raw::dm_map_reasons(
            n,
            bytes.as_ptr(),
            bytes.len(),
            lengths.as_ptr(),
            lengths.len(),
            a,
            out.as_mut_ptr(),
            out.len(),
            numbers.as_mut_ptr(),
            answer.as_mut_ptr(),
        );
    }
    answer
}

#[inline]
pub fn wide_from_narrow(n: u64, list: &[u8], out: &mut [u8]) -> Words {
    let mut answer = UNANSWERED;
    unsafe {
        raw::dm_wide_from_narrow(n, list.as_ptr(), list.len(), out.as_mut_ptr(), out.len(), answer.as_mut_ptr());
    }
    answer
}

#[inline]
pub fn narrow_from_wide(n: u64, list: &[u8], out: &mut [u8]) -> Words {
    let mut answer = UNANSWERED;
    unsafe {
        raw::dm_narrow_from_wide(n, list.as_ptr(), list.len(), out.as_mut_ptr(), out.len(), answer.as_mut_ptr());
    }
    answer
}
