//! The static library, linked into this program.
//!
//! A lent slice crosses as its pointer and its length, a record by value. Every function here lends whole slices, so each call
//! is sound whatever the values are.

use super::Call;
use crate::link::{
    FLOATS, HEAD, HEAD_BEFORE, Left, ROW_BEFORE, Session, Step, TEXT, TEXT_BEFORE, THE_END,
};
use crate::records::{
    Fed, LineSetting, Pair, Plane, Reader, RecoveredPoint, RecoverySetting, Setting, Solution,
    Solved,
};

#[cfg(not(target_arch = "x86_64"))]
mod by_pointer;
#[cfg(not(target_arch = "x86_64"))]
use by_pointer::*;

unsafe extern "C" {
    fn ravelsickle_root(x: f64) -> f64;
    fn ravelsickle_fused(x: f64, y: f64, z: f64) -> f64;
    fn ravelsickle_normalize(rows: *mut f64, floats: usize) -> u64;
}

#[cfg(target_arch = "x86_64")]
unsafe extern "C" {
    fn ravelsickle_solve_2x2(r: Plane, s: Plane) -> Pair;
    fn ravelsickle_lp_1d(pairs: *const f64, floats: usize, task: LineSetting) -> Pair;
    fn ravelsickle_solve(rows: *mut f64, floats: usize, task: Setting) -> Solved;
    fn ravelsickle_solve_rows(rows: *mut Plane, rows_count: usize, task: Setting) -> Solved;
    fn ravelsickle_lp_2d_incre_max_y(rows: *mut f64, floats: usize, task: Setting) -> Solution;
    fn ravelsickle_recover_2d_prefix(
        rows: *const f64,
        floats: usize,
        task: RecoverySetting,
    ) -> RecoveredPoint;
    fn ravelsickle_reader_start(limit: u64) -> Reader;
    fn ravelsickle_reader_feed(
        reader: Reader,
        head: *mut u8,
        rows: *mut f64,
        bytes: *const u8,
        bytes_count: usize,
        text: *mut u8,
    ) -> Fed;
    fn ravelsickle_reader_end(reader: Reader, head: *const u8, text: *mut u8) -> Fed;
}

pub fn root(x: f64) -> f64 {
    unsafe { ravelsickle_root(x) }
}

pub fn fused(x: f64, y: f64, z: f64) -> f64 {
    unsafe { ravelsickle_fused(x, y, z) }
}

pub fn normalize(rows: &mut [f64]) -> u64 {
    unsafe { ravelsickle_normalize(rows.as_mut_ptr(), rows.len()) }
}

pub fn solve_2x2(first: Plane, second: Plane) -> Pair {
    unsafe { ravelsickle_solve_2x2(first, second) }
}

pub fn lp_1d(pairs: &[f64], setting: LineSetting) -> Pair {
    unsafe { ravelsickle_lp_1d(pairs.as_ptr(), pairs.len(), setting) }
}

pub fn solve(rows: &mut [f64], setting: Setting) -> Solved {
    unsafe { ravelsickle_solve(rows.as_mut_ptr(), rows.len(), setting) }
}

/// The floats as whole rows; what is left over is not lent.
pub fn solve_rows(rows: &mut [f64], setting: Setting) -> Solved {
    let (planes, _) = rows.as_chunks_mut::<3>();
    unsafe { ravelsickle_solve_rows(planes.as_mut_ptr().cast(), planes.len(), setting) }
}

pub fn solve_own(rows: &mut [f64], setting: Setting) -> Solution {
    unsafe { ravelsickle_lp_2d_incre_max_y(rows.as_mut_ptr(), rows.len(), setting) }
}

pub fn recover(rows: &[f64], setting: RecoverySetting) -> RecoveredPoint {
    unsafe { ravelsickle_recover_2d_prefix(rows.as_ptr(), rows.len(), setting) }
}

/// A reader with its memory.
pub struct Link {
    reader: Reader,
    head: [u8; HEAD],
    rows: [f64; FLOATS],
    pub text: [u8; TEXT],
}

impl Link {
    pub fn new(limit: u64) -> Link {
        Link {
            reader: unsafe { ravelsickle_reader_start(limit) },
            head: [HEAD_BEFORE; HEAD],
            rows: [ROW_BEFORE; FLOATS],
            text: [TEXT_BEFORE; TEXT],
        }
    }

    pub fn feed(&mut self, bytes: &[u8]) -> Fed {
        let fed = unsafe {
            ravelsickle_reader_feed(
                self.reader,
                self.head.as_mut_ptr(),
                self.rows.as_mut_ptr(),
                bytes.as_ptr(),
                bytes.len(),
                self.text.as_mut_ptr(),
            )
        };
        self.reader = fed.reader();
        fed
    }

    pub fn end(&mut self) -> Fed {
        let fed = unsafe {
            ravelsickle_reader_end(self.reader, self.head.as_ptr(), self.text.as_mut_ptr())
        };
        self.reader = fed.reader();
        fed
    }
}

/// Does with a stream what the session says.
fn run_session(session: &Session) -> Left {
    let mut link = Box::new(Link::new(session.limit));
    let mut rest = session.bytes.as_slice();
    let mut steps = Vec::with_capacity(session.offers.len());
    for &offer in &session.offers {
        link.text = [TEXT_BEFORE; TEXT];
        let fed = if offer == THE_END {
            link.end()
        } else {
            link.feed(&rest[..rest.len().min(offer as usize)])
        };
        rest = &rest[fed.taken.min(rest.len())..];
        let text = link.text.to_vec();
        steps.push(Step { fed, text });
    }
    let behind = link.rows[session.shown..].iter();
    let changed = behind.filter(|row| row.to_bits() != ROW_BEFORE.to_bits());
    Left {
        steps,
        head: link.head.to_vec(),
        rows: link.rows[..session.shown].to_vec(),
        changed: changed.count() as u64,
    }
}

/// Nothing is kept between calls.
pub struct Back;

impl Back {
    pub fn new() -> Result<Back, String> {
        Ok(Back)
    }

    pub fn make(&mut self, calls: &mut [Call]) -> Result<(), String> {
        calls.iter_mut().for_each(make_one);
        Ok(())
    }
}

fn make_one(call: &mut Call) {
    match call {
        Call::Roots { given, got } => *got = given.iter().map(|&x| root(x)).collect(),
        Call::Fuseds { given, got } => {
            *got = given.iter().map(|&[x, y, z]| fused(x, y, z)).collect()
        }
        Call::Normalize { rows, refusal } => *refusal = normalize(rows),
        Call::Two { first, second, out } => *out = solve_2x2(*first, *second),
        Call::Line {
            pairs,
            setting,
            out,
        } => *out = lp_1d(pairs, *setting),
        Call::Solve { rows, setting, out } => *out = solve(rows, *setting),
        Call::Rows { rows, setting, out } => *out = solve_rows(rows, *setting),
        Call::Own { rows, setting, out } => *out = solve_own(rows, *setting),
        Call::Recover { rows, setting, out } => *out = recover(rows, *setting),
        Call::Link { session, left } => *left = run_session(session),
    }
}
