//! The original: its functions, and the copies of its text that have them.

use crate::math::numerical::{counted, left, lp, ordered};
use crate::records::LineSetting;
use crate::task::{Row, Task};

/// The SHA-256 of the text of `lp.rs` that was built.
pub const LP_SUM: &str = env!("COMPARE_LP_SUM");
/// The SHA-256 of the text of `general.rs` that was built.
pub const GENERAL_SUM: &str = env!("COMPARE_GENERAL_SUM");

/// Whether the text that was built is the published one.
pub fn is_published() -> bool {
    env!("COMPARE_PUBLISHED") == "true"
}

/// A solve's answer with the active rows; the original's number for no row is `None`.
#[derive(Clone, Copy, Debug)]
pub struct Answer {
    pub x: f64,
    pub y: f64,
    pub first: Option<usize>,
    pub second: Option<usize>,
}

/// What recovery is given besides the rows.
#[derive(Clone, Copy, Debug)]
pub struct Recovery {
    pub upto: usize,
    pub x: f64,
    pub y: f64,
    pub bound: f64,
    pub epsilon: f64,
    pub reduced: f64,
    pub first: Option<usize>,
    pub second: Option<usize>,
}

/// The recovered point, if any, and the collector afterwards.
pub type Recovered = (Option<(f64, f64)>, Option<usize>, Option<usize>);

/// The functions of one copy of the text. `build/reach.rs.in`, which is appended to every copy, hands them on.
pub trait Edition: Sync {
    fn normalize(&self, rows: &mut [Row]);

    /// The point on both boundaries of two rows.
    fn solve_2x2(&self, first: Row, second: Row) -> Option<(f64, f64)>;

    /// The highest and the lowest value.
    fn lp_1d(&self, pairs: &[(f64, f64)], setting: &LineSetting) -> (f64, f64);

    /// The source's own entry, which collects no active rows, on rows that are lent to it.
    fn solve_silent(&self, rows: &mut [Row], task: &Task) -> (f64, f64);

    /// The solve with the collector that holds row numbers, on rows that are lent to it.
    fn solve(&self, rows: &mut [Row], task: &Task) -> Answer;

    /// Recovery of a prefix with a collector that already holds something.
    fn recover(&self, rows: &[Row], task: &Recovery) -> Recovered;
}

/// The unmodified text.
pub const UNMODIFIED: &dyn Edition = &lp::reach::Text;
/// The text with probes, which count readings as RULES 11 counts them, and branches.
pub const COUNTED: &dyn Edition = &counted::reach::Text;
/// The counted text with `min` and `max` in which -0 is below +0 (`zeros::Ordered`).
pub const ORDERED: &dyn Edition = &ordered::reach::Text;
/// The counted text with `min` and `max` that give the left one of two equal numbers (`zeros::Left`).
pub const LEFT: &dyn Edition = &left::reach::Text;
