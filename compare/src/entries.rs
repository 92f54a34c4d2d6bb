//! Normalising, the 2 by 2 system, `lp_1d` and recovery, each entry against the original's own function.

use crate::batch::{self, Kind};
use crate::kernel::{Call, Kernel};
use crate::original::{Edition, Recovery, UNMODIFIED};
use crate::records::{LineSetting, Pair, Record, RecoveredPoint};
use crate::report::{Verdict, differs_on_line, hex, hex_all, row_text};
use crate::rng::Rng;
use crate::same::{Alike, all_alike};
use crate::signs::signed_zeros;
use crate::solves;
use crate::standard::{ORIGINAL, SIGNS, Standard};
use crate::task::{Row, Task, flat};
use crate::values;

// ---- a case and its judgement

/// What one of the entries is given.
pub(crate) enum Case {
    Normalize(Vec<Row>),
    Two(Row, Row),
    Line(Vec<(f64, f64)>, LineSetting),
    Recover(Vec<Row>, Recovery),
}

/// What a copy of the original does with a case.
#[derive(Debug)]
struct Done {
    /// The rows afterwards, the pair or the point; none where there is none.
    numbers: Option<Vec<f64>>,
    /// The collector after a recovery.
    held: (Option<usize>, Option<usize>),
}

impl Done {
    fn of(numbers: Option<Vec<f64>>) -> Done {
        let held = (None, None);
        Done { numbers, held }
    }

    /// What recovery must answer: the point with the collector afterwards, or a refusal with the collector as it was.
    fn recovered(&self, rows: &[Row], given: &Recovery) -> RecoveredPoint {
        let before = (given.first, given.second);
        match &self.numbers {
            _ if given.upto > rows.len() => RecoveredPoint::of(7, None, before),
            None => RecoveredPoint::of(6, None, before),
            Some(at) => RecoveredPoint::of(0, Some((at[0], at[1])), self.held),
        }
    }
}

fn pair_of((x, y): (f64, f64)) -> Vec<f64> {
    vec![x, y]
}

fn flat_pairs(pairs: &[(f64, f64)]) -> Vec<f64> {
    pairs.iter().flat_map(|&(a, b)| [a, b]).collect()
}

/// The numbers of a recovery that reach its `min` and `max` as they are, as the copies of a standard are given them.
fn as_given(by: &Standard, given: &Recovery) -> Recovery {
    Recovery {
        x: (by.given)(given.x),
        y: (by.given)(given.y),
        bound: (by.given)(given.bound),
        epsilon: (by.given)(given.epsilon),
        reduced: (by.given)(given.reduced),
        ..*given
    }
}

/// Whether an entry answered the wanted pair, or refused with this number where none is wanted.
fn same_pair(alike: Alike, wanted: &Done, none: u64, got: &Pair) -> bool {
    match &wanted.numbers {
        None => got.same_words(&Pair::refused(none)),
        Some(pair) => got.refusal == 0 && all_alike(alike, pair, &[got.x, got.y]),
    }
}

impl Case {
    fn call(&self) -> Call {
        match self {
            Case::Normalize(rows) => Call::normalize(flat(rows)),
            Case::Two(first, second) => Call::two(*first, *second),
            Case::Line(pairs, setting) => Call::line(flat_pairs(pairs), *setting),
            Case::Recover(rows, given) => Call::recover(flat(rows), given),
        }
    }

    /// What a copy does. It cannot be asked about a prefix longer than the rows.
    fn done(&self, by: &Standard, copy: &dyn Edition) -> Done {
        match self {
            Case::Normalize(rows) => {
                let mut rows = rows.clone();
                copy.normalize(&mut rows);
                Done::of(Some(flat(&rows)))
            }
            Case::Two(first, second) => Done::of(copy.solve_2x2(*first, *second).map(pair_of)),
            Case::Line(pairs, setting) => {
                let setting = LineSetting {
                    feasibility: (by.given)(setting.feasibility),
                    ..*setting
                };
                Done::of(Some(pair_of(copy.lp_1d(pairs, &setting))))
            }
            Case::Recover(rows, given) if given.upto > rows.len() => Done {
                numbers: None,
                held: (given.first, given.second),
            },
            Case::Recover(rows, given) => {
                let (point, first, second) = copy.recover(rows, &as_given(by, given));
                Done {
                    numbers: point.map(pair_of),
                    held: (first, second),
                }
            }
        }
    }

    /// What both copies of a standard do, which must agree.
    fn expect(&self, by: &Standard) -> Result<Done, String> {
        let [first, second] = by.ask(|copy| self.done(by, copy))?;
        let agree = match (&first.numbers, &second.numbers) {
            (None, None) => true,
            (Some(own), Some(other)) => by.agree(own, other),
            _ => false,
        };
        if agree && first.held == second.held {
            Ok(first)
        } else {
            Err(format!(
                "two copies of the original do not agree: {first:?} and {second:?}"
            ))
        }
    }

    /// Judges a case by what its call left.
    pub(crate) fn judge(&self, by: &Standard, calls: &[Call]) -> Result<(), String> {
        let wanted = self.expect(by)?;
        let right = match (self, calls) {
            (Case::Normalize(_), [Call::Normalize { rows, refusal }]) => {
                let numbers = wanted.numbers.as_deref().unwrap_or_default();
                *refusal == 0 && all_alike(by.alike, numbers, rows)
            }
            (Case::Two(..), [Call::Two { out, .. }]) => same_pair(by.alike, &wanted, 5, out),
            (Case::Line(..), [Call::Line { out, .. }]) => same_pair(by.alike, &wanted, 0, out),
            (Case::Recover(rows, given), [Call::Recover { out, .. }]) => {
                out.same(&wanted.recovered(rows, given), by.alike)
            }
            _ => false,
        };
        if right {
            return Ok(());
        }
        let numbers = hex_all(&wanted.numbers.clone().unwrap_or_default());
        let left = calls.iter().map(told).collect::<String>();
        Err(format!(
            "the entry gives {left}; wanted is {numbers} ({wanted:?})"
        ))
    }

    /// The case as a line of `entries.txt`.
    fn line(&self) -> String {
        match self {
            Case::Normalize(rows) => format!("norm {} {}", rows.len(), hex_all(&flat(rows))),
            Case::Two(first, second) => {
                let left = hex_all(&[first.0, first.1, second.0, second.1]);
                format!("two {left} {}", hex_all(&[first.2, second.2]))
            }
            Case::Line(pairs, given) => {
                let setting = format!("{} {}", u8::from(given.autonan), hex(given.feasibility));
                let pairs = format!("{} {}", pairs.len(), hex_all(&flat_pairs(pairs)));
                format!("line {setting} {pairs}")
            }
            Case::Recover(rows, given) => format!(
                "recover {} {} {} {} {} {}",
                given.upto,
                hex_all(&[given.x, given.y, given.epsilon, given.reduced, given.bound]),
                row_text(given.first),
                row_text(given.second),
                rows.len(),
                hex_all(&flat(rows))
            ),
        }
    }
}

/// What a call of an entry left, with the bits of its numbers.
fn told(call: &Call) -> String {
    match call {
        Call::Normalize { rows, refusal } => format!("refusal {refusal}, {}", hex_all(rows)),
        Call::Two { out, .. } | Call::Line { out, .. } => {
            format!("{} ({out:?})", hex_all(&[out.x, out.y]))
        }
        Call::Recover { out, .. } => format!("{} ({out:?})", hex_all(&[out.x, out.y])),
        _ => "what another entry gives".to_string(),
    }
}

// ---- the cases

/// A number of any kind, everyday ones most often.
fn number(rng: &mut Rng) -> f64 {
    match rng.below(6) {
        0 => values::special(rng),
        1 => rng.whole(-3, 3) as f64,
        2 => values::ordinary(rng) * values::power(rng),
        _ => values::ordinary(rng),
    }
}

fn row(rng: &mut Rng) -> Row {
    (number(rng), number(rng), number(rng))
}

/// Rows of any squares, of squares that come again in any order, or normalised already.
fn normalizing(rng: &mut Rng) -> Case {
    let size = rng.size(0, 12);
    let mut rows: Vec<Row> = (0..size).map(|_| row(rng)).collect();
    match rng.below(4) {
        0 | 1 => {
            for k in 1..rows.len() {
                if rng.once_in(2) {
                    let (a, b, _) = rows[rng.below(k as u64) as usize];
                    let sign = rng.sign();
                    rows[k] = (a * sign, b * sign, rows[k].2);
                }
            }
        }
        2 => UNMODIFIED.normalize(&mut rows),
        _ => {}
    }
    Case::Normalize(rows)
}

/// Two rows, at times nearly parallel, so that the determinant is near its error bound.
fn system(rng: &mut Rng) -> Case {
    let first = row(rng);
    let mut second = row(rng);
    match rng.below(4) {
        0 => {
            let by = values::ordinary(rng);
            second.0 = values::neighbour(rng, first.0 * by);
            second.1 = values::neighbour(rng, first.1 * by);
        }
        1 => {
            second.0 = first.0;
            second.1 = values::neighbour(rng, first.1);
        }
        _ => {}
    }
    Case::Two(first, second)
}

/// Pairs of any kind, or pairs whose ends lie close together.
fn pairs(rng: &mut Rng) -> Vec<(f64, f64)> {
    let size = rng.size(0, 12);
    if rng.once_in(3) {
        let at = values::ordinary(rng);
        let off = 10f64.powi(rng.whole(-15, -6) as i32);
        return (0..size)
            .map(|_| {
                let a = values::ordinary(rng);
                (a, a * (at + off * rng.between(-1.0, 1.0)))
            })
            .collect();
    }
    (0..size)
        .map(|_| match rng.below(3) {
            0 => {
                // A coefficient at the edge of counting as zero.
                let b = number(rng);
                let edge = b.abs().clamp(1e-3, 1.0) * 1e-9;
                (values::neighbour(rng, edge) * rng.sign(), b)
            }
            _ => (number(rng), number(rng)),
        })
        .collect()
}

fn line(rng: &mut Rng, case: u64) -> Case {
    let pairs = pairs(rng);
    let feasibility = match rng.below(4) {
        0 => values::special(rng),
        1 => 1e-3,
        _ => 1e-9,
    };
    let setting = LineSetting {
        feasibility,
        scale: number(rng),
        autonan: case.is_multiple_of(2),
    };
    Case::Line(pairs, setting)
}

fn some_row_number(rng: &mut Rng, size: usize) -> Option<usize> {
    match rng.below(4) {
        0 => None,
        1 => Some(rng.bits() as usize & !3),
        _ => Some(rng.size(0, size)),
    }
}

/// Rows whose boundaries lie so far out at the level of the start that the sum of two of them overflows.
fn far_out(rng: &mut Rng) -> Task {
    let mut task = solves::grid(rng);
    let side = rng.sign();
    for row in &mut task.rows {
        row.0 = rng.between(1.0, 4.0) * 1e-308 * rng.sign();
        row.1 = rng.pick(&[0.0, 1.0, 0.5]);
        row.2 = row.0 * side * rng.between(0.5, 1.7) * 1e308 + row.1 * task.y0;
    }
    task.feasibility = rng.pick(&[1e-17, 0.0, 1e-16, 0.5, 1.0]);
    task.x0 = side * rng.between(0.0, 1.7) * 1e308;
    task
}

/// Rows and a start for which recovery has something to do.
fn recoverable(rng: &mut Rng) -> Task {
    match rng.below(9) {
        8 => far_out(rng),
        0 => solves::special(rng),
        1 => solves::duplicated(rng),
        2 => solves::edges(rng),
        3 | 4 => solves::coincident(rng),
        _ => solves::grid(rng),
    }
}

/// A recovery of a prefix of the task's rows, mostly from its start.
fn recovery(rng: &mut Rng, task: Task) -> Case {
    let size = task.rows.len();
    let upto = match rng.below(10) {
        0 => size + 1,
        1 => rng.pick(&[usize::MAX, size + 7, 1 << 63]),
        2 => 0,
        3 => rng.size(0, size),
        _ => size,
    };
    let epsilon = if rng.once_in(8) {
        values::special(rng)
    } else {
        task.feasibility
    };
    let reduced = match rng.below(6) {
        0 => values::special(rng),
        1 => -epsilon,
        _ => epsilon * task.scale,
    };
    let bound = match rng.below(6) {
        0 => values::special(rng),
        1 => rng.whole(0, 8) as f64,
        _ => rng.pick(&[1e6, 1e9, 1e24]),
    };
    let y = match rng.below(10) {
        0 => values::special(rng),
        1 => bound,
        _ => task.y0,
    };
    let x = match rng.below(10) {
        0 => values::special(rng),
        1 => bound * rng.sign(),
        _ => task.x0,
    };
    let first = some_row_number(rng, size);
    let second = some_row_number(rng, size);
    let given = Recovery {
        upto,
        x,
        y,
        bound,
        epsilon,
        reduced,
        first,
        second,
    };
    Case::Recover(task.rows, given)
}

// ---- the families

/// The number of calls made together.
const AT_ONCE: u64 = 200;

/// Draws cases and holds the kernel to a standard.
fn run(
    by: &Standard,
    draw: fn(&mut Rng, u64) -> Case,
    kernel: &mut Kernel,
    rng: &mut Rng,
    cases: u64,
) -> Verdict {
    let kind = Kind {
        at_once: AT_ONCE,
        draw: &|rng, number| {
            let case = draw(rng, number);
            let call = case.call();
            (case, vec![call])
        },
        judge: &|case: &Case, calls| case.judge(by, calls),
        tell: &|case, what| differs_on_line(what, case.line()),
    };
    batch::run(&kind, kernel, rng, cases)
}

pub fn normalizings(kernel: &mut Kernel, rng: &mut Rng, cases: u64) -> Verdict {
    run(&ORIGINAL, |rng, _| normalizing(rng), kernel, rng, cases)
}

pub fn systems(kernel: &mut Kernel, rng: &mut Rng, cases: u64) -> Verdict {
    run(&ORIGINAL, |rng, _| system(rng), kernel, rng, cases)
}

pub fn lines(kernel: &mut Kernel, rng: &mut Rng, cases: u64) -> Verdict {
    run(&ORIGINAL, line, kernel, rng, cases)
}

pub fn recoveries(kernel: &mut Kernel, rng: &mut Rng, cases: u64) -> Verdict {
    let draw = |rng: &mut Rng, _| {
        let task = recoverable(rng);
        recovery(rng, task)
    };
    run(&ORIGINAL, draw, kernel, rng, cases)
}

/// A recovery, often at zeros of both signs, at times in a box whose half-width is one.
fn signed_recovery(rng: &mut Rng) -> Case {
    let task = if rng.once_in(2) {
        signed_zeros(rng)
    } else {
        recoverable(rng)
    };
    let mut case = recovery(rng, task);
    if let Case::Recover(_, given) = &mut case
        && rng.once_in(4)
    {
        given.bound = values::zero(rng);
    }
    case
}

/// Every bit with zeros in order, of recovery most often: in no other of these entries does a sign show the order.
pub fn signs(kernel: &mut Kernel, rng: &mut Rng, cases: u64) -> Verdict {
    let draw = |rng: &mut Rng, number| match rng.below(8) {
        0 => normalizing(rng),
        1 => system(rng),
        2 => line(rng, number),
        _ => signed_recovery(rng),
    };
    run(&SIGNS, draw, kernel, rng, cases)
}
