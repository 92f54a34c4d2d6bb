//! What the instrumented copies of the original count while they run: readings, the normalisations and the branches taken.

use std::cell::Cell;
use std::sync::atomic::{AtomicU64, Ordering};

include!(concat!(env!("OUT_DIR"), "/branches.rs"));

/// A solve normalises once in each of its seven solves at most.
pub const MOST_NORMALISATIONS: usize = 7;

/// What one run counted.
#[derive(Clone, Copy, Default, Debug, PartialEq)]
pub struct Run {
    pub readings: u64,
    /// The readings taken when a normalisation had ended, for each in order.
    pub normalised_at: [u64; MOST_NORMALISATIONS],
    pub normalisations: usize,
}

thread_local! {
    static RUN: Cell<Run> = const {
        Cell::new(Run {
            readings: 0,
            normalised_at: [0; MOST_NORMALISATIONS],
            normalisations: 0,
        })
    };
    static READINGS: Cell<u64> = const { Cell::new(0) };
    static TAKEN: [Cell<u64>; NAMES.len()] = const { [const { Cell::new(0) }; NAMES.len()] };
}

/// How often each branch was taken, over all threads that have handed their numbers in.
static TOTALS: [AtomicU64; NAMES.len()] = [const { AtomicU64::new(0) }; NAMES.len()];

/// Sets readings and normalisations to nothing before a run.
pub fn start() {
    RUN.set(Run::default());
    READINGS.set(0);
}

/// What was counted since the start.
pub fn finish() -> Run {
    let mut run = RUN.get();
    run.readings = READINGS.get();
    run
}

/// Adds this thread's branch numbers to the totals and begins them anew.
pub fn hand_in() {
    TAKEN.with(|taken| {
        for (own, total) in taken.iter().zip(&TOTALS) {
            total.fetch_add(own.replace(0), Ordering::Relaxed);
        }
    });
}

/// How often a branch was taken in all runs that were handed in.
pub fn total(branch: usize) -> u64 {
    TOTALS[branch].load(Ordering::Relaxed)
}

pub(crate) fn reading() {
    READINGS.set(READINGS.get() + 1);
}

pub(crate) fn readings(rows: usize) {
    READINGS.set(READINGS.get() + rows as u64);
}

pub(crate) fn normalised(rows: usize) {
    readings(rows);
    let mut run = RUN.get();
    if run.normalisations < MOST_NORMALISATIONS {
        run.normalised_at[run.normalisations] = READINGS.get();
    }
    run.normalisations += 1;
    RUN.set(run);
}

pub(crate) fn hit(branch: usize) {
    TAKEN.with(|taken| taken[branch].set(taken[branch].get() + 1));
}

/// Counts the branch where the condition holds, and hands the condition on.
pub(crate) fn when(branch: usize, condition: bool) -> bool {
    if condition {
        hit(branch);
    }
    condition
}

/// Counts the branch where the condition does not hold, and hands the condition on.
pub(crate) fn unless(branch: usize, condition: bool) -> bool {
    if !condition {
        hit(branch);
    }
    condition
}

/// Counts one of two branches, and hands the condition on.
pub(crate) fn either(yes: usize, no: usize, condition: bool) -> bool {
    hit(if condition { yes } else { no });
    condition
}

/// Counts a branch that ends in `false`.
pub(crate) fn refused(branch: usize) -> bool {
    hit(branch);
    false
}

/// How often this thread took a branch since it handed its numbers in; the branch must be one of the names.
pub fn taken(name: &str) -> u64 {
    let branch = NAMES.iter().position(|&known| known == name);
    TAKEN.with(|taken| branch.map_or(0, |branch| taken[branch].get()))
}
