//! The entries that take or give records, by pointer: `build/native.c` says why.

use std::mem::MaybeUninit;

use crate::records::{
    Fed, LineSetting, Pair, Plane, Reader, RecoveredPoint, RecoverySetting, Setting, Solution,
    Solved,
};

unsafe extern "C" {
    fn native_solve_2x2(r: *const Plane, s: *const Plane, out: *mut Pair);
    fn native_lp_1d(pairs: *const f64, floats: usize, task: *const LineSetting, out: *mut Pair);
    fn native_solve(rows: *mut f64, floats: usize, task: *const Setting, out: *mut Solved);
    fn native_solve_rows(rows: *mut Plane, count: usize, task: *const Setting, out: *mut Solved);
    fn native_lp_2d_incre_max_y(
        rows: *mut f64,
        floats: usize,
        task: *const Setting,
        out: *mut Solution,
    );
    fn native_recover_2d_prefix(
        rows: *const f64,
        floats: usize,
        task: *const RecoverySetting,
        out: *mut RecoveredPoint,
    );
    fn native_reader_start(limit: u64, out: *mut Reader);
    fn native_reader_feed(
        reader: *const Reader,
        head: *mut u8,
        rows: *mut f64,
        bytes: *const u8,
        bytes_count: usize,
        text: *mut u8,
        out: *mut Fed,
    );
    fn native_reader_end(reader: *const Reader, head: *const u8, text: *mut u8, out: *mut Fed);
}

/// The record that a call writes.
unsafe fn given<R>(call: impl FnOnce(*mut R)) -> R {
    let mut out = MaybeUninit::uninit();
    call(out.as_mut_ptr());
    unsafe { out.assume_init() }
}

pub unsafe fn ravelsickle_solve_2x2(r: Plane, s: Plane) -> Pair {
    unsafe { given(|out| native_solve_2x2(&r, &s, out)) }
}

pub unsafe fn ravelsickle_lp_1d(pairs: *const f64, floats: usize, task: LineSetting) -> Pair {
    unsafe { given(|out| native_lp_1d(pairs, floats, &task, out)) }
}

pub unsafe fn ravelsickle_solve(rows: *mut f64, floats: usize, task: Setting) -> Solved {
    unsafe { given(|out| native_solve(rows, floats, &task, out)) }
}

pub unsafe fn ravelsickle_solve_rows(rows: *mut Plane, count: usize, task: Setting) -> Solved {
    unsafe { given(|out| native_solve_rows(rows, count, &task, out)) }
}

pub unsafe fn ravelsickle_lp_2d_incre_max_y(
    rows: *mut f64,
    floats: usize,
    task: Setting,
) -> Solution {
    unsafe { given(|out| native_lp_2d_incre_max_y(rows, floats, &task, out)) }
}

pub unsafe fn ravelsickle_recover_2d_prefix(
    rows: *const f64,
    floats: usize,
    task: RecoverySetting,
) -> RecoveredPoint {
    unsafe { given(|out| native_recover_2d_prefix(rows, floats, &task, out)) }
}

pub unsafe fn ravelsickle_reader_start(limit: u64) -> Reader {
    unsafe { given(|out| native_reader_start(limit, out)) }
}

pub unsafe fn ravelsickle_reader_feed(
    reader: Reader,
    head: *mut u8,
    rows: *mut f64,
    bytes: *const u8,
    bytes_count: usize,
    text: *mut u8,
) -> Fed {
    unsafe { given(|out| native_reader_feed(&reader, head, rows, bytes, bytes_count, text, out)) }
}

pub unsafe fn ravelsickle_reader_end(reader: Reader, head: *const u8, text: *mut u8) -> Fed {
    unsafe { given(|out| native_reader_end(&reader, head, text, out)) }
}
