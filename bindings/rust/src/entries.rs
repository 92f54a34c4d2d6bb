//! The library's entries and the records that cross to them, as C sees them. `bindings/c/ravelsickle.h` says what each does
//! and what a refusal answers and leaves.

use crate::Row;

// C's lengths and row numbers have 64 bits on every processor, and below they are `usize`.
#[cfg(not(target_pointer_width = "64"))]
compile_error!("this crate is for processors whose usize has 64 bits; on a smaller one, call the C header's entries");

/// `RAVELSICKLE_HEAD`: the bytes of a record before its rows.
pub(crate) const HEAD: usize = 55;

/// `RAVELSICKLE_FLOATS`: the floats of the most rows that a record may have.
pub(crate) const FLOATS: usize = 6144;

/// `RAVELSICKLE_LINE`: room for any text that a call prints.
pub(crate) const LINE: usize = 149;

/// `struct ravelsickle_task`.
#[repr(C)]
pub(crate) struct Task {
    pub(crate) feasibility: f64,
    pub(crate) scale: f64,
    pub(crate) x0: f64,
    pub(crate) y0: f64,
    pub(crate) skip: usize,
    pub(crate) normalize: u64,
    pub(crate) allowance: u64,
}

/// `struct ravelsickle_answer`.
#[repr(C)]
pub(crate) struct Answer {
    pub(crate) refusal: u64,
    pub(crate) kind: u64,
    pub(crate) x: f64,
    pub(crate) y: f64,
    pub(crate) count: u64,
    pub(crate) first: usize,
    pub(crate) second: usize,
    pub(crate) has_first: bool,
    pub(crate) has_second: bool,
}

/// `struct ravelsickle_solution`.
#[repr(C)]
pub(crate) struct Solution {
    pub(crate) refusal: u64,
    pub(crate) kind: u64,
    pub(crate) x: f64,
    pub(crate) y: f64,
}

/// `struct ravelsickle_crossing`.
#[repr(C)]
pub(crate) struct Crossing {
    pub(crate) refusal: u64,
    pub(crate) x: f64,
    pub(crate) y: f64,
}

/// `struct ravelsickle_line_task`.
#[repr(C)]
pub(crate) struct LineTask {
    pub(crate) feasibility: f64,
    pub(crate) scale: f64,
    pub(crate) autonan: bool,
}

/// `struct ravelsickle_bounds`.
#[repr(C)]
pub(crate) struct Bounds {
    pub(crate) refusal: u64,
    pub(crate) high: f64,
    pub(crate) low: f64,
}

/// `struct ravelsickle_recovery_task`.
#[repr(C)]
pub(crate) struct RecoveryTask {
    pub(crate) upto: usize,
    pub(crate) x0: f64,
    pub(crate) y0: f64,
    pub(crate) bound: f64,
    pub(crate) epsilon: f64,
    pub(crate) reduced: f64,
    pub(crate) first: usize,
    pub(crate) second: usize,
    pub(crate) has_first: bool,
    pub(crate) has_second: bool,
}

/// `struct ravelsickle_recovered`.
#[repr(C)]
pub(crate) struct Recovered {
    pub(crate) refusal: u64,
    pub(crate) x: f64,
    pub(crate) y: f64,
    pub(crate) first: usize,
    pub(crate) second: usize,
    pub(crate) has_first: bool,
    pub(crate) has_second: bool,
}

/// `struct ravelsickle_reader`.
#[repr(C)]
#[derive(Clone, Copy, Debug, PartialEq, Eq)]
pub(crate) struct Reader {
    pub(crate) live: u64,
    pub(crate) lines: u64,
    pub(crate) left: u64,
    pub(crate) passed: usize,
    pub(crate) word: u64,
}

/// `struct ravelsickle_fed`.
#[repr(C)]
pub(crate) struct Fed {
    pub(crate) refusal: u64,
    pub(crate) taken: usize,
    pub(crate) printed: usize,
    pub(crate) reader: Reader,
}

extern "C" {
    pub(crate) fn ravelsickle_root(x: f64) -> f64;

    pub(crate) fn ravelsickle_fused(x: f64, y: f64, z: f64) -> f64;

    pub(crate) fn ravelsickle_normalize(rows: *mut f64, floats: usize) -> u64;

    pub(crate) fn ravelsickle_solve_2x2(r: Row, s: Row) -> Crossing;

    pub(crate) fn ravelsickle_lp_1d(pairs: *const f64, floats: usize, task: LineTask) -> Bounds;

    pub(crate) fn ravelsickle_solve(rows: *mut f64, floats: usize, task: Task) -> Answer;

    pub(crate) fn ravelsickle_lp_2d_incre_max_y(
        rows: *mut f64,
        floats: usize,
        task: Task,
    ) -> Solution;

    pub(crate) fn ravelsickle_recover_2d_prefix(
        rows: *const f64,
        floats: usize,
        task: RecoveryTask,
    ) -> Recovered;

    pub(crate) fn ravelsickle_reader_start(limit: u64) -> Reader;

    pub(crate) fn ravelsickle_reader_feed(
        reader: Reader,
        head: *mut [u8; HEAD],
        rows: *mut [f64; FLOATS],
        bytes: *const u8,
        bytes_count: usize,
        text: *mut [u8; LINE],
    ) -> Fed;

    pub(crate) fn ravelsickle_reader_end(
        reader: Reader,
        head: *const [u8; HEAD],
        text: *mut [u8; LINE],
    ) -> Fed;
}
