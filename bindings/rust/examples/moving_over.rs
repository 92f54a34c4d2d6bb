//! How a caller of the original's `lp_2d_incre_max_y` moves over.
//!
//! | The original | Here |
//! |---|---|
//! | a row `(a, b, c)` | `Row { a, b, c }`, or `Row::from((a, b, c))` |
//! | `Lp2dWarmStart { x0: (x, y), skip }` | `WarmStart { x, y, skip }` |
//! | `LpToleranceOptionsBuilder::builder().build()` | `Tolerances::default()` |
//! | `LpToleranceOptions::with_feas_tol(t)` | `Tolerances { feasibility: t, ..Tolerances::default() }` |
//! | the const generic `NORMALIZE` | `Normalize::Off` or `Normalize::Source` |
//! | `(NaN, y)`, `(x, NaN)`, `(NaN, NaN)` | `Answer::Level`, `Answer::Across`, `Answer::Nothing` |
//! | the row number 18446744073709551614 | `None` |
//! | a run as long as it takes | `Refusal::Stopped` above an allowance, with `solve` |

use ravelsickle::{
    lp_2d_incre_max_y, solve, Answer, Normalize, Refusal, Row, Task, Tolerances, WarmStart,
};

/// The rows as a caller of the original has them.
const TUPLES: [(f64, f64, f64); 3] = [(1.0, 0.5, 8.0), (-1.0, 0.5, 8.0), (0.0, 1.0, 12.0)];

/// The old call, and the new one that gives the same pair.
///
/// ```text
/// let mut a_b = TUPLES;
/// let warm_start = Lp2dWarmStart { x0: (0.0, LP_BOUND), skip: 0 };
/// let tol = LpToleranceOptionsBuilder::builder().build();
/// let (x, y) = lp_2d_incre_max_y::<_, true>(&mut a_b, &warm_start, &tol);
/// ```
fn as_before() -> Result<(f64, f64), Refusal> {
    let mut rows = TUPLES.map(Row::from);
    let task = Task {
        start: WarmStart {
            x: 0.0,
            y: ravelsickle::BEYOND,
            skip: 0,
        },
        tolerances: Tolerances::default(),
        normalize: Normalize::Source,
    };
    // the rows are normalised in place here too; `pair` has NaN where the original has it
    lp_2d_incre_max_y(&mut rows, &task).map(Answer::pair)
}

/// What the original could not say: the rows that hold the answer, how many readings it took, and a limit on them.
fn with_more(allowance: u64) -> String {
    let mut rows = TUPLES.map(Row::from);
    let task = Task {
        normalize: Normalize::Source,
        ..Task::default()
    };
    match solve(&mut rows, &task, allowance) {
        Ok(solved) => format!(
            "{:?}, held by rows {:?}, after {} readings",
            solved.answer, solved.active, solved.count
        ),
        Err(refusal) => refusal.to_string(),
    }
}

fn main() -> Result<(), Refusal> {
    let (x, y) = as_before()?;
    println!("as before: x = {x}, y = {y}");
    assert_eq!((x, y), (0.0, 12.0));

    let finished = with_more(1000);
    println!("with an allowance of 1000: {finished}");
    assert_eq!(
        finished,
        "Point { x: 0.0, y: 12.0 }, held by rows (Some(2), None), after 15 readings"
    );

    let stopped = with_more(5);
    println!("with an allowance of 5: {stopped}");
    assert_eq!(stopped, "refusal 3: not finished within 5 readings");
    Ok(())
}
