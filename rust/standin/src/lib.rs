//! The library's C face, answered by the model. It lets the packages and the C example be tried where the archive is not
//! at hand. A comparison over it compares the model with itself, and says so.

#![expect(clippy::missing_safety_doc, reason = "the header says what a caller owes")]

use model::calls::{self, Outcome, words};
use model::index::Starts;
use model::selector::{self, MapOutcome, Parts, PerList};
use std::slice::{from_raw_parts, from_raw_parts_mut};

// SAFETY, for each call below: the header asks of the caller that pointers are not null, lengths are true, written
// buffers overlap nothing, `answer` has eight words, `starts` thirty-three and a number for each list twelve.

unsafe fn give(outcome: Outcome, answer: *mut u64) {
    unsafe { from_raw_parts_mut(answer, 8) }.copy_from_slice(&words(&outcome));
}

unsafe fn give_of_map(outcome: MapOutcome, answer: *mut u64) {
    unsafe { from_raw_parts_mut(answer, 8) }.copy_from_slice(&selector::words(&outcome));
}

unsafe fn parts<'a>(bytes: *const u8, length: usize, lengths: *const u64, count: usize) -> Parts<'a> {
    unsafe { Parts { bytes: from_raw_parts(bytes, length), lengths: from_raw_parts(lengths, count) } }
}

#[unsafe(no_mangle)]
pub unsafe extern "C" fn dm_check(n: u64, list: *const u8, list_length: usize, answer: *mut u64) {
    unsafe { give(calls::check(n, from_raw_parts(list, list_length)), answer) }
}

#[unsafe(no_mangle)]
pub unsafe extern "C" fn dm_value(n: u64, list: *const u8, list_length: usize, a: u64, answer: *mut u64) {
    unsafe { give(calls::value(n, from_raw_parts(list, list_length), a), answer) }
}

#[unsafe(no_mangle)]
pub unsafe extern "C" fn dm_reasons(
    n: u64,
    list: *const u8,
    list_length: usize,
    a: u64,
    out: *mut u8,
    out_length: usize,
    answer: *mut u64,
) {
    unsafe {
        let out = from_raw_parts_mut(out, out_length);
        give(calls::reasons(n, from_raw_parts(list, list_length), a, out), answer)
    }
}

#[unsafe(no_mangle)]
pub unsafe extern "C" fn dm_truth_vector(
    n: u64,
    list: *const u8,
    list_length: usize,
    out: *mut u8,
    out_length: usize,
    answer: *mut u64,
) {
    unsafe {
        let out = from_raw_parts_mut(out, out_length);
        give(calls::truth_vector(n, from_raw_parts(list, list_length), out), answer)
    }
}

#[unsafe(no_mangle)]
pub unsafe extern "C" fn dm_coefficients(
    n: u64,
    vector: *const u8,
    vector_length: usize,
    p: u64,
    out: *mut u8,
    out_length: usize,
    answer: *mut u64,
) {
    unsafe {
        let out = from_raw_parts_mut(out, out_length);
        give(calls::coefficients(n, from_raw_parts(vector, vector_length), p, out), answer)
    }
}

#[unsafe(no_mangle)]
pub unsafe extern "C" fn dm_vector(
    n: u64,
    coefficients: *const u8,
    coefficients_length: usize,
    p: u64,
    out: *mut u8,
    out_length: usize,
    answer: *mut u64,
) {
    unsafe {
        let out = from_raw_parts_mut(out, out_length);
        give(calls::vector(n, from_raw_parts(coefficients, coefficients_length), p, out), answer)
    }
}

#[unsafe(no_mangle)]
pub unsafe extern "C" fn dm_write_form(
    n: u64,
    coefficients: *const u8,
    coefficients_length: usize,
    p: u64,
    out: *mut u8,
    out_length: usize,
    answer: *mut u64,
) {
    unsafe {
        let out = from_raw_parts_mut(out, out_length);
        give(calls::write_form(n, from_raw_parts(coefficients, coefficients_length), p, out), answer)
    }
}

#[unsafe(no_mangle)]
pub unsafe extern "C" fn dm_best_polarity(n: u64, vector: *const u8, vector_length: usize, answer: *mut u64) {
    unsafe { give(calls::best_polarity(n, from_raw_parts(vector, vector_length)), answer) }
}

#[unsafe(no_mangle)]
pub unsafe extern "C" fn dm_write_tree(
    n: u64,
    vector: *const u8,
    vector_length: usize,
    out: *mut u8,
    out_length: usize,
    answer: *mut u64,
) {
    unsafe {
        let out = from_raw_parts_mut(out, out_length);
        give(calls::write_tree(n, from_raw_parts(vector, vector_length), out), answer)
    }
}

#[unsafe(no_mangle)]
pub unsafe extern "C" fn dm_write_kronecker(
    n: u64,
    vector: *const u8,
    vector_length: usize,
    out: *mut u8,
    out_length: usize,
    answer: *mut u64,
) {
    unsafe {
        let out = from_raw_parts_mut(out, out_length);
        give(calls::write_kronecker(n, from_raw_parts(vector, vector_length), out), answer)
    }
}

#[unsafe(no_mangle)]
pub unsafe extern "C" fn dm_run(
    n: u64,
    list: *const u8,
    list_length: usize,
    script: *const u8,
    script_length: usize,
    work: *mut u8,
    work_length: usize,
    answer: *mut u64,
) {
    unsafe {
        let (list, script) = (from_raw_parts(list, list_length), from_raw_parts(script, script_length));
        give(calls::run(n, list, script, from_raw_parts_mut(work, work_length)), answer)
    }
}

#[unsafe(no_mangle)]
pub unsafe extern "C" fn dm_settle(
    n: u64,
    list: *const u8,
    list_length: usize,
    script: *const u8,
    script_length: usize,
    work: *mut u8,
    work_length: usize,
    out: *mut u8,
    out_length: usize,
    answer: *mut u64,
) {
    unsafe {
        let (list, script) = (from_raw_parts(list, list_length), from_raw_parts(script, script_length));
        let (work, out) = (from_raw_parts_mut(work, work_length), from_raw_parts_mut(out, out_length));
        give(calls::settle(n, list, script, work, out), answer)
    }
}

#[unsafe(no_mangle)]
pub unsafe extern "C" fn dm_write_script(
    n: u64,
    list: *const u8,
    list_length: usize,
    work: *mut u8,
    work_length: usize,
    script: *mut u8,
    script_length: usize,
    answer: *mut u64,
) {
    unsafe {
        let (work, script) = (from_raw_parts_mut(work, work_length), from_raw_parts_mut(script, script_length));
        give(calls::write_script(n, from_raw_parts(list, list_length), work, script), answer)
    }
}

#[unsafe(no_mangle)]
pub unsafe extern "C" fn dm_compact(
    n: u64,
    count: u64,
    script: *const u8,
    script_length: usize,
    out: *mut u8,
    out_length: usize,
    answer: *mut u64,
) {
    unsafe {
        let out = from_raw_parts_mut(out, out_length);
        give(calls::compact(n, count, from_raw_parts(script, script_length), out), answer)
    }
}

#[unsafe(no_mangle)]
pub unsafe extern "C" fn dm_index(
    n: u64,
    list: *const u8,
    list_length: usize,
    index: *mut u8,
    index_length: usize,
    starts: *mut Starts,
    answer: *mut u64,
) {
    unsafe {
        let index = from_raw_parts_mut(index, index_length);
        give(calls::index(n, from_raw_parts(list, list_length), index, &mut *starts), answer)
    }
}

#[unsafe(no_mangle)]
pub unsafe extern "C" fn dm_group(
    n: u64,
    list: *const u8,
    list_length: usize,
    index: *const u8,
    index_length: usize,
    starts: *const Starts,
    number: u64,
    answer: *mut u64,
) {
    unsafe {
        let (list, index) = (from_raw_parts(list, list_length), from_raw_parts(index, index_length));
        give(calls::group(n, list, index, &*starts, number), answer)
    }
}

#[unsafe(no_mangle)]
pub unsafe extern "C" fn dm_run_indexed(
    n: u64,
    list: *const u8,
    list_length: usize,
    script: *const u8,
    script_length: usize,
    work: *mut u8,
    work_length: usize,
    index: *mut u8,
    index_length: usize,
    starts: *mut Starts,
    answer: *mut u64,
) {
    unsafe {
        let (list, script) = (from_raw_parts(list, list_length), from_raw_parts(script, script_length));
        let (work, index) = (from_raw_parts_mut(work, work_length), from_raw_parts_mut(index, index_length));
        give(calls::run_indexed(n, list, script, work, index, &mut *starts), answer)
    }
}

#[unsafe(no_mangle)]
pub unsafe extern "C" fn dm_shared_check(n: u64, list: *const u8, list_length: usize, answer: *mut u64) {
    unsafe { give(calls::shared_check(n, from_raw_parts(list, list_length)), answer) }
}

#[unsafe(no_mangle)]
pub unsafe extern "C" fn dm_shared_value(n: u64, list: *const u8, list_length: usize, a: u64, answer: *mut u64) {
    unsafe { give(calls::shared_value(n, from_raw_parts(list, list_length), a), answer) }
}

#[unsafe(no_mangle)]
pub unsafe extern "C" fn dm_shared_run(
    n: u64,
    list: *const u8,
    list_length: usize,
    script: *const u8,
    script_length: usize,
    work: *mut u8,
    work_length: usize,
    answer: *mut u64,
) {
    unsafe {
        let (list, script) = (from_raw_parts(list, list_length), from_raw_parts(script, script_length));
        give(calls::shared_run(n, list, script, from_raw_parts_mut(work, work_length)), answer)
    }
}

#[unsafe(no_mangle)]
pub unsafe extern "C" fn dm_shared_settle(
    n: u64,
    list: *const u8,
    list_length: usize,
    script: *const u8,
    script_length: usize,
    work: *mut u8,
    work_length: usize,
    out: *mut u8,
    out_length: usize,
    answer: *mut u64,
) {
    unsafe {
        let (list, script) = (from_raw_parts(list, list_length), from_raw_parts(script, script_length));
        let (work, out) = (from_raw_parts_mut(work, work_length), from_raw_parts_mut(out, out_length));
        give(calls::shared_settle(n, list, script, work, out), answer)
    }
}

#[unsafe(no_mangle)]
pub unsafe extern "C" fn dm_slot(
    n: u64,
    lists: *const u8,
    lists_length: usize,
    lengths: *const u64,
    lengths_count: usize,
    a: u64,
    answer: *mut u64,
) {
    unsafe { give_of_map(selector::slot(n, parts(lists, lists_length, lengths, lengths_count), a), answer) }
}

#[unsafe(no_mangle)]
pub unsafe extern "C" fn dm_settle_map(
    n: u64,
    lists: *const u8,
    lists_length: usize,
    lengths: *const u64,
    lengths_count: usize,
    scripts: *const u8,
    scripts_length: usize,
    script_lengths: *const u64,
    script_lengths_count: usize,
    work: *mut u8,
    work_length: usize,
    out: *mut u8,
    out_length: usize,
    burned_lengths: *mut PerList,
    answer: *mut u64,
) {
    unsafe {
        let lists = parts(lists, lists_length, lengths, lengths_count);
        let scripts = parts(scripts, scripts_length, script_lengths, script_lengths_count);
        let (work, out) = (from_raw_parts_mut(work, work_length), from_raw_parts_mut(out, out_length));
        give_of_map(selector::settle_map(n, lists, scripts, work, out, &mut *burned_lengths), answer)
    }
}

#[unsafe(no_mangle)]
pub unsafe extern "C" fn dm_map_reasons(
    n: u64,
    lists: *const u8,
    lists_length: usize,
    lengths: *const u64,
    lengths_count: usize,
    a: u64,
    out: *mut u8,
    out_length: usize,
    numbers: *mut PerList,
    answer: *mut u64,
) {
    unsafe {
        let (lists, out) = (parts(lists, lists_length, lengths, lengths_count), from_raw_parts_mut(out, out_length));
        give_of_map(selector::map_reasons(n, lists, a, out, &mut *numbers), answer)
    }
}

#[unsafe(no_mangle)]
pub unsafe extern "C" fn dm_wide_from_narrow(
    n: u64,
    list: *const u8,
    list_length: usize,
    out: *mut u8,
    out_length: usize,
    answer: *mut u64,
) {
    unsafe {
        let out = from_raw_parts_mut(out, out_length);
        give(calls::wide_from_narrow(n, from_raw_parts(list, list_length), out), answer)
    }
}

#[unsafe(no_mangle)]
pub unsafe extern "C" fn dm_narrow_from_wide(
    n: u64,
    list: *const u8,
    list_length: usize,
    out: *mut u8,
    out_length: usize,
    answer: *mut u64,
) {
    unsafe {
        let out = from_raw_parts_mut(out, out_length);
        give(calls::narrow_from_wide(n, from_raw_parts(list, list_length), out), answer)
    }
}
