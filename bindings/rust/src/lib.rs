//! Safe calls of Ravelsickle: the highest y under half-planes `a*x + b*y <= c`, within a number of row readings that is
//! known beforehand.
//!
//! Rows are lent and changed in place where they are normalised, as in the original; nothing is copied. "No row" is
//! `None`. A call that gives no answer gives a [`Refusal`].
//!
//! ```
//! use ravelsickle::{solve, Answer, Row, Task};
//!
//! let mut rows = [Row::new(1.0, 1.0, 2.0), Row::new(-1.0, 1.0, 0.0)];
//! let solved = solve(&mut rows, &Task::default(), 1000)?;
//! assert_eq!(solved.answer, Answer::Point { x: 1.0, y: 1.0 });
//! assert_eq!(solved.active, (Some(0), Some(1)));
//! assert_eq!(solved.count, 7);
//! # Ok::<(), ravelsickle::Refusal>(())
//! ```
//!
//! Records that come off a link a few bytes at a time, cut anywhere, are answered by a [`Link`], or read by [`Lines`].
//!
//! The library computes with the processor's own floats, so the floating-point unit has to round to nearest and keep
//! subnormal numbers, as it does unless a program changes it.

#![deny(missing_docs)]

mod entries;
mod link;
mod refusal;

pub use link::{End, Feed, Line, Lines, Link, Taken, MOST_BYTES};
pub use refusal::Refusal;

/// The most rows, or pairs, that an entry takes.
pub const ROW_LIMIT: usize = 4096;

/// A start level that means "beyond the set": a solve that begins there may move up to the edge of a larger box.
pub const BEYOND: f64 = 1e6;

/// The half-plane `a*x + b*y <= c`, laid out as in C.
#[repr(C)]
#[derive(Clone, Copy, Debug, Default, PartialEq)]
pub struct Row {
    /// What multiplies x.
    pub a: f64,
    /// What multiplies y.
    pub b: f64,
    /// The right side.
    pub c: f64,
}

impl Row {
    /// The row `a*x + b*y <= c`.
    pub const fn new(a: f64, b: f64, c: f64) -> Row {
        Row { a, b, c }
    }
}

/// The original's row is a tuple.
impl From<(f64, f64, f64)> for Row {
    fn from((a, b, c): (f64, f64, f64)) -> Row {
        Row { a, b, c }
    }
}

impl From<Row> for (f64, f64, f64) {
    fn from(row: Row) -> (f64, f64, f64) {
        (row.a, row.b, row.c)
    }
}

/// Where a solve starts, and how many leading rows that point is known to meet.
#[derive(Clone, Copy, Debug, PartialEq)]
pub struct WarmStart {
    /// The start's x.
    pub x: f64,
    /// The start's y. A solve only moves down from it, but for [`BEYOND`].
    pub y: f64,
    /// The leading rows to skip. More than there are is allowed.
    pub skip: usize,
}

/// A start without knowledge: above the set, and no row skipped.
impl Default for WarmStart {
    fn default() -> WarmStart {
        WarmStart {
            x: 0.0,
            y: BEYOND,
            skip: 0,
        }
    }
}

/// By how much a point may violate a row.
#[derive(Clone, Copy, Debug, PartialEq)]
pub struct Tolerances {
    /// The tolerance of a row (the original's `feas_tol`).
    pub feasibility: f64,
    /// What multiplies it in a reduction to one dimension (the original's `reduce_dim_scale`).
    pub scale: f64,
}

/// The values of the original's builder.
impl Default for Tolerances {
    fn default() -> Tolerances {
        Tolerances {
            feasibility: 1e-9,
            scale: 10.0,
        }
    }
}

/// Whether a solve normalises its rows.
#[derive(Clone, Copy, Debug, Default, PartialEq, Eq)]
pub enum Normalize {
    /// The rows stay as they are.
    #[default]
    Off,
    /// Each of the up to seven solves first scales the rows in place to unit normals, as the original does.
    Source,
}

impl Normalize {
    /// The number by which a mode crosses.
    fn number(self) -> u64 {
        match self {
            Normalize::Off => 0,
            Normalize::Source => 1,
        }
    }
}

/// What a solve is given besides its rows.
#[derive(Clone, Copy, Debug, Default, PartialEq)]
pub struct Task {
    /// Where to start.
    pub start: WarmStart,
    /// By how much a point may violate a row.
    pub tolerances: Tolerances,
    /// Whether to normalise the rows.
    pub normalize: Normalize,
}

impl Task {
    /// The record that crosses.
    fn record(&self, allowance: u64) -> entries::Task {
        entries::Task {
            feasibility: self.tolerances.feasibility,
            scale: self.tolerances.scale,
            x0: self.start.x,
            y0: self.start.y,
            skip: self.start.skip,
            normalize: self.normalize.number(),
            allowance,
        }
    }
}

/// The answer of a solve. Infinite numbers are numbers.
#[derive(Clone, Copy, Debug, PartialEq)]
pub enum Answer {
    /// A point.
    Point {
        /// Its x.
        x: f64,
        /// Its y.
        y: f64,
    },
    /// The highest y alone: x is free.
    Level {
        /// The level.
        y: f64,
    },
    /// An x alone.
    Across {
        /// The x.
        x: f64,
    },
    /// Neither number.
    Nothing,
}

impl Answer {
    /// The pair that the original returns: a number that the answer does not have is NaN.
    ///
    /// ```
    /// let (x, y) = ravelsickle::Answer::Level { y: 3.0 }.pair();
    /// assert!(x.is_nan() && y == 3.0);
    /// ```
    pub fn pair(self) -> (f64, f64) {
        match self {
            Answer::Point { x, y } => (x, y),
            Answer::Level { y } => (f64::NAN, y),
            Answer::Across { x } => (x, f64::NAN),
            Answer::Nothing => (f64::NAN, f64::NAN),
        }
    }

    /// The answer of a kind's number, with the pair beside it.
    fn of(kind: u64, x: f64, y: f64) -> Answer {
        match kind {
            1 => Answer::Point { x, y },
            2 => Answer::Level { y },
            3 => Answer::Across { x },
            4 => Answer::Nothing,
            _ => panic!("the library gave an answer of kind {kind}: it is newer than this crate"),
        }
    }
}

/// A finished solve.
#[derive(Clone, Copy, Debug, PartialEq)]
pub struct Solved {
    /// The answer.
    pub answer: Answer,
    /// The rows that hold it: the first and the second, by their places among the rows.
    pub active: (Option<usize>, Option<usize>),
    /// The row readings that it took.
    pub count: u64,
}

/// The active rows of a caller, which a recovery changes where it finds others.
#[derive(Clone, Copy, Debug, Default, PartialEq, Eq)]
pub struct Collector {
    /// The first active row.
    pub first: Option<usize>,
    /// The second active row.
    pub second: Option<usize>,
}

/// What a recovery is posed in.
#[derive(Clone, Copy, Debug, PartialEq)]
pub struct Frame {
    /// Half the width of the box.
    pub bound: f64,
    /// By how much a point may violate a row.
    pub epsilon: f64,
    /// The same in a reduction to one dimension (the `feas_tol` of the original's `tol_1d`).
    pub reduced: f64,
}

/// The highest and the lowest t of a line.
#[derive(Clone, Copy, Debug, PartialEq)]
pub struct Bounds {
    /// The highest t.
    pub high: f64,
    /// The lowest t.
    pub low: f64,
}

/// A row's number where its flag is set; without it the number says nothing.
fn row(has: bool, number: usize) -> Option<usize> {
    has.then_some(number)
}

/// The floats of rows, which are the same memory.
fn floats(rows: &[Row]) -> &[f64] {
    // SAFETY: a Row is three f64 one after another, without padding and with their alignment.
    unsafe { std::slice::from_raw_parts(rows.as_ptr().cast(), 3 * rows.len()) }
}

/// The floats of rows, to be changed in place.
fn floats_mut(rows: &mut [Row]) -> &mut [f64] {
    // SAFETY: as for `floats`; every three f64 are a Row.
    unsafe { std::slice::from_raw_parts_mut(rows.as_mut_ptr().cast(), 3 * rows.len()) }
}

/// The square root, rounded once. NaN for a number below zero; -0 for -0.
///
/// ```
/// assert_eq!(ravelsickle::root(2.0).to_bits(), 0x3FF6_A09E_667F_3BCD);
/// ```
pub fn root(x: f64) -> f64 {
    // SAFETY: the entry takes a number and gives one.
    unsafe { entries::ravelsickle_root(x) }
}

/// `x*y + z`, rounded once.
///
/// ```
/// assert_eq!(ravelsickle::fused(2.0, 3.0, 5.0), 11.0);
/// ```
pub fn fused(x: f64, y: f64, z: f64) -> f64 {
    // SAFETY: the entry takes numbers and gives one.
    unsafe { entries::ravelsickle_fused(x, y, z) }
}

/// Scales the rows in place to unit normals. A row whose norm is zero or not finite becomes zeros. Refusal 2.
///
/// ```
/// let mut rows = [ravelsickle::Row::new(3.0, 4.0, 10.0)];
/// ravelsickle::normalize(&mut rows)?;
/// assert_eq!((rows[0].a, rows[0].b, rows[0].c), (3.0 * 0.2, 0.8, 2.0));
/// # Ok::<(), ravelsickle::Refusal>(())
/// ```
pub fn normalize(rows: &mut [Row]) -> Result<(), Refusal> {
    normalize_flat(floats_mut(rows))
}

/// [`normalize`] of rows that lie flat, three floats to a row. Refusals 1 and 2.
pub fn normalize_flat(rows: &mut [f64]) -> Result<(), Refusal> {
    // SAFETY: the pointer and the length are those of one slice, lent mutably.
    let number = unsafe { entries::ravelsickle_normalize(rows.as_mut_ptr(), rows.len()) };
    Refusal::check(number, 0)
}

/// The point on the boundaries of both rows. Refusal 5.
///
/// ```
/// use ravelsickle::{solve_2x2, Refusal, Row};
///
/// let point = solve_2x2(Row::new(1.0, 2.0, 5.0), Row::new(3.0, 4.0, 6.0));
/// assert_eq!(point, Ok((-4.0, 4.5)));
/// let parallel = solve_2x2(Row::new(1.0, 2.0, 5.0), Row::new(2.0, 4.0, 6.0));
/// assert_eq!(parallel, Err(Refusal::Singular));
/// ```
pub fn solve_2x2(r: Row, s: Row) -> Result<(f64, f64), Refusal> {
    // SAFETY: the entry takes records and gives one.
    let got = unsafe { entries::ravelsickle_solve_2x2(r, s) };
    Refusal::check(got.refusal, 0)?;
    Ok((got.x, got.y))
}

/// The highest and the lowest t with `a*t <= b` for every pair `[a, b]`; infinite where no pair bounds it. With `autonan`
/// a high below the low becomes the middle of both where they are within the tolerance of each other, else NaN.
/// Refusal 2.
///
/// ```
/// use ravelsickle::{lp_1d, Bounds, Tolerances};
///
/// let bounds = lp_1d(&[[1.0, 5.0], [-1.0, -2.0]], true, Tolerances::default())?;
/// assert_eq!(bounds, Bounds { high: 5.0, low: 2.0 });
/// # Ok::<(), ravelsickle::Refusal>(())
/// ```
pub fn lp_1d(pairs: &[[f64; 2]], autonan: bool, tolerances: Tolerances) -> Result<Bounds, Refusal> {
    let flat = pairs.as_flattened();
    let task = entries::LineTask {
        feasibility: tolerances.feasibility,
        scale: tolerances.scale,
        autonan,
    };
    // SAFETY: the pointer and the length are those of one slice, which the entry only reads.
    let got = unsafe { entries::ravelsickle_lp_1d(flat.as_ptr(), flat.len(), task) };
    Refusal::check(got.refusal, 0)?;
    Ok(Bounds {
        high: got.high,
        low: got.low,
    })
}

/// The highest y under the rows, the rows that hold it, and the readings it took, of which `allowance` are allowed.
/// Refusals 2 and 3.
///
/// ```
/// use ravelsickle::{solve, Refusal, Row, Task};
///
/// let mut rows = [Row::new(1.0, 1.0, 2.0), Row::new(-1.0, 1.0, 0.0)];
/// assert!(solve(&mut rows, &Task::default(), 7).is_ok());
/// assert_eq!(solve(&mut rows, &Task::default(), 6), Err(Refusal::Stopped { count: 6 }));
/// ```
pub fn solve(rows: &mut [Row], task: &Task, allowance: u64) -> Result<Solved, Refusal> {
    solve_flat(floats_mut(rows), task, allowance)
}

/// [`solve`] of rows that lie flat, three floats to a row. Refusals 1, 2 and 3.
pub fn solve_flat(rows: &mut [f64], task: &Task, allowance: u64) -> Result<Solved, Refusal> {
    // SAFETY: the pointer and the length are those of one slice, lent mutably.
    let got = unsafe {
        entries::ravelsickle_solve(rows.as_mut_ptr(), rows.len(), task.record(allowance))
    };
    Refusal::check(got.refusal, got.count)?;
    Ok(Solved {
        answer: Answer::of(got.kind, got.x, got.y),
        active: (
            row(got.has_first, got.first),
            row(got.has_second, got.second),
        ),
        count: got.count,
    })
}

/// The original's own entry: the answer of [`solve`] without allowance, active rows or count. Refusal 2.
///
/// ```
/// use ravelsickle::{lp_2d_incre_max_y, Answer, Row, Task};
///
/// let mut rows = [Row::new(1.0, 1.0, 2.0), Row::new(-1.0, 1.0, 0.0)];
/// let answer = lp_2d_incre_max_y(&mut rows, &Task::default())?;
/// assert_eq!(answer, Answer::Point { x: 1.0, y: 1.0 });
/// # Ok::<(), ravelsickle::Refusal>(())
/// ```
pub fn lp_2d_incre_max_y(rows: &mut [Row], task: &Task) -> Result<Answer, Refusal> {
    let flat = floats_mut(rows);
    // the entry looks at no allowance
    let record = task.record(u64::MAX);
    // SAFETY: the pointer and the length are those of one slice, lent mutably.
    let got =
        unsafe { entries::ravelsickle_lp_2d_incre_max_y(flat.as_mut_ptr(), flat.len(), record) };
    Refusal::check(got.refusal, 0)?;
    Ok(Answer::of(got.kind, got.x, got.y))
}

/// A point that holds for the first `upto` rows, after a solve's usual step failed at the point `at`. The collector then
/// holds the point's active rows, or is as before where the point is `at` itself and no row's boundary gave one.
/// Refusals 2, 7 and 6, which leave the collector unchanged.
///
/// ```
/// use ravelsickle::{recover, Collector, Frame, Row};
///
/// let rows = [Row::new(1.0, 1.0, 2.0), Row::new(-1.0, 1.0, 0.0)];
/// let frame = Frame { bound: 1e6, epsilon: 1e-9, reduced: 1e-8 };
/// let mut collector = Collector::default();
/// assert_eq!(recover(&rows, 2, (0.0, 2.0), frame, &mut collector), Ok((1.0, 1.0)));
/// assert_eq!(collector, Collector { first: Some(0), second: Some(1) });
/// ```
pub fn recover(
    rows: &[Row],
    upto: usize,
    at: (f64, f64),
    frame: Frame,
    collector: &mut Collector,
) -> Result<(f64, f64), Refusal> {
    let flat = floats(rows);
    let task = entries::RecoveryTask {
        upto,
        x0: at.0,
        y0: at.1,
        bound: frame.bound,
        epsilon: frame.epsilon,
        reduced: frame.reduced,
        first: collector.first.unwrap_or(0),
        second: collector.second.unwrap_or(0),
        has_first: collector.first.is_some(),
        has_second: collector.second.is_some(),
    };
    // SAFETY: the pointer and the length are those of one slice, which the entry only reads.
    let got = unsafe { entries::ravelsickle_recover_2d_prefix(flat.as_ptr(), flat.len(), task) };
    Refusal::check(got.refusal, 0)?;
    collector.first = row(got.has_first, got.first);
    collector.second = row(got.has_second, got.second);
    Ok((got.x, got.y))
}

#[cfg(test)]
mod tests {
    use super::*;

    #[test]
    fn a_row_is_three_floats() {
        assert_eq!(std::mem::size_of::<Row>(), 24);
        assert_eq!(std::mem::align_of::<Row>(), std::mem::align_of::<f64>());
        let mut rows = [Row::new(1.0, 2.0, 3.0), Row::new(4.0, 5.0, 6.0)];
        assert_eq!(floats(&rows), [1.0, 2.0, 3.0, 4.0, 5.0, 6.0]);
        floats_mut(&mut rows)[4] = 7.0;
        assert_eq!(rows[1], Row::new(4.0, 7.0, 6.0));
    }

    #[test]
    fn a_kind_decides_the_answer() {
        assert_eq!(Answer::of(1, 1.0, 2.0), Answer::Point { x: 1.0, y: 2.0 });
        assert_eq!(Answer::of(2, 1.0, 2.0), Answer::Level { y: 2.0 });
        assert_eq!(Answer::of(3, 1.0, 2.0), Answer::Across { x: 1.0 });
        assert_eq!(Answer::of(4, 1.0, 2.0), Answer::Nothing);
    }

    #[test]
    #[should_panic(expected = "newer than this crate")]
    fn an_unknown_kind_is_no_answer() {
        Answer::of(5, 1.0, 2.0);
    }

    #[test]
    fn the_pair_has_nan_for_what_is_missing() {
        assert_eq!(Answer::Point { x: 1.0, y: 2.0 }.pair(), (1.0, 2.0));
        let (x, y) = Answer::Level { y: 2.0 }.pair();
        assert!(x.is_nan() && y == 2.0);
        let (x, y) = Answer::Across { x: 1.0 }.pair();
        assert!(x == 1.0 && y.is_nan());
        let (x, y) = Answer::Nothing.pair();
        assert!(x.is_nan() && y.is_nan());
    }

    #[test]
    fn a_row_without_its_flag_is_none_whatever_its_number() {
        assert_eq!(row(false, 5), None);
        assert_eq!(row(true, 5), Some(5));
        assert_eq!(row(true, 0), Some(0));
    }
}
