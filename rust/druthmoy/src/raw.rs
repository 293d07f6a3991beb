//! The declarations of `druthmoy.h`. A slice crosses as a pointer and a length, an answer as a pointer to eight words,
//! the starts of groups as one to thirty-three, a number for each list of a map as one to twelve.

unsafe extern "C" {
    pub fn dm_check(n: u64, list: *const u8, list_length: usize, answer: *mut u64);
    pub fn dm_value(n: u64, list: *const u8, list_length: usize, a: u64, answer: *mut u64);
    pub fn dm_reasons(
        n: u64,
        list: *const u8,
        list_length: usize,
        a: u64,
        out: *mut u8,
        out_length: usize,
        answer: *mut u64,
    );
    pub fn dm_truth_vector(
        n: u64,
        list: *const u8,
        list_length: usize,
        out: *mut u8,
        out_length: usize,
        answer: *mut u64,
    );
    pub fn dm_coefficients(
        n: u64,
        vector: *const u8,
        vector_length: usize,
        p: u64,
        out: *mut u8,
        out_length: usize,
        answer: *mut u64,
    );
    pub fn dm_vector(
        n: u64,
        coefficients: *const u8,
        coefficients_length: usize,
        p: u64,
        out: *mut u8,
        out_length: usize,
        answer: *mut u64,
    );
    pub fn dm_write_form(
        n: u64,
        coefficients: *const u8,
        coefficients_length: usize,
        p: u64,
        out: *mut u8,
        out_length: usize,
        answer: *mut u64,
    );
    pub fn dm_best_polarity(n: u64, vector: *const u8, vector_length: usize, answer: *mut u64);
    pub fn dm_write_tree(
        n: u64,
        vector: *const u8,
        vector_length: usize,
        out: *mut u8,
        out_length: usize,
        answer: *mut u64,
    );
    pub fn dm_write_kronecker(
        n: u64,
        vector: *const u8,
        vector_length: usize,
        out: *mut u8,
        out_length: usize,
        answer: *mut u64,
    );
    pub fn dm_run(
        n: u64,
        list: *const u8,
        list_length: usize,
        script: *const u8,
        script_length: usize,
        work: *mut u8,
        work_length: usize,
        answer: *mut u64,
    );
    pub fn dm_settle(
        n: u64,
        list: *const u8,
        list_length: usize,
        script: *const u8,
        script_length: usize,
        work: *mut u8,
        work_length: usize,
        out: *mut u8,
        out_length: usize,
        answer: *mut u64,
    );
    pub fn dm_write_script(
        n: u64,
        list: *const u8,
        list_length: usize,
        work: *mut u8,
        work_length: usize,
        script: *mut u8,
        script_length: usize,
        answer: *mut u64,
    );
    pub fn dm_compact(
        n: u64,
        count: u64,
        script: *const u8,
        script_length: usize,
        out: *mut u8,
        out_length: usize,
        answer: *mut u64,
    );
    pub fn dm_index(
        n: u64,
        list: *const u8,
        list_length: usize,
        index: *mut u8,
        index_length: usize,
        starts: *mut u64,
        answer: *mut u64,
    );
    pub fn dm_group(
        n: u64,
        list: *const u8,
        list_length: usize,
        index: *const u8,
        index_length: usize,
        starts: *const u64,
        number: u64,
        answer: *mut u64,
    );
    pub fn dm_run_indexed(
        n: u64,
        list: *const u8,
        list_length: usize,
        script: *const u8,
        script_length: usize,
        work: *mut u8,
        work_length: usize,
        index: *mut u8,
        index_length: usize,
        starts: *mut u64,
        answer: *mut u64,
    );
    pub fn dm_shared_check(n: u64, list: *const u8, list_length: usize, answer: *mut u64);
    pub fn dm_shared_value(n: u64, list: *const u8, list_length: usize, a: u64, answer: *mut u64);
    pub fn dm_shared_run(
        n: u64,
        list: *const u8,
        list_length: usize,
        script: *const u8,
        script_length: usize,
        work: *mut u8,
        work_length: usize,
        answer: *mut u64,
    );
    pub fn dm_shared_settle(
        n: u64,
        list: *const u8,
        list_length: usize,
        script: *const u8,
        script_length: usize,
        work: *mut u8,
        work_length: usize,
        out: *mut u8,
        out_length: usize,
        answer: *mut u64,
    );
    pub fn dm_slot(
        n: u64,
        lists: *const u8,
        lists_length: usize,
        lengths: *const u64,
        lengths_count: usize,
        a: u64,
        answer: *mut u64,
    );
    pub fn dm_settle_map(
        n: u64,
        lists: *const u8,
        lists_length: usize,
        lengths: *const u64,
        lengths_count: usize,
        scripts: *const u8,
        scripts_length: usize,
        script_lengths: *const u64,
        script_lengths_count: usize,
        work: *mut u8,
        work_length: usize,
        out: *mut u8,
        out_length: usize,
        burned_lengths: *mut u64,
        answer: *mut u64,
    );
    pub fn dm_map_reasons(
        n: u64,
        lists: *const u8,
        lists_length: usize,
        lengths: *const u64,
        lengths_count: usize,
        a: u64,
        out: *mut u8,
        out_length: usize,
        numbers: *mut u64,
        answer: *mut u64,
    );
    pub fn dm_wide_from_narrow(
        n: u64,
        list: *const u8,
        list_length: usize,
        out: *mut u8,
        out_length: usize,
        answer: *mut u64,
    );
    pub fn dm_narrow_from_wide(
        n: u64,
        list: *const u8,
        list_length: usize,
        out: *mut u8,
        out_length: usize,
        answer: *mut u64,
    );
}
