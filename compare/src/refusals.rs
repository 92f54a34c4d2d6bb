//! Refusals 1, 2 and 10 of the library's entries, which leave all that was lent as it was; and, beside refusal 2, that every
//! entry takes 4,096 rows or pairs and does with them what the original does.

use crate::batch::{self, Drawn, Kind};
use crate::entries::Case;
use crate::kernel::{Call, Kernel};
use crate::original::Recovery;
use crate::records::{LineSetting, Pair, Record, RecoveredPoint, Setting, Solution, Solved};
use crate::report::{Verdict, differs_on_line, hex_all};
use crate::rng::Rng;
use crate::same::same_bits;
use crate::solves::{self, Trial};
use crate::standard::ORIGINAL;
use crate::task::{Row, Task};
use crate::values;

const MOST_ROWS: usize = 4096;

/// The refusal that a number of floats must get, with `width` floats to a row or pair; 0 where there is none.
fn wanted(length: usize, width: usize) -> u64 {
    if !length.is_multiple_of(width) {
        1
    } else if length / width > MOST_ROWS {
        2
    } else {
        0
    }
}

/// Lengths that are refused, most of them just so.
fn refused_length(rng: &mut Rng, width: usize) -> usize {
    loop {
        let length = match rng.below(4) {
            0 => rng.size(0, 64),
            1 => width * MOST_ROWS + rng.size(0, 2 * width),
            2 => width * (MOST_ROWS + 1),
            _ => rng.size(0, width * (MOST_ROWS + 50)),
        };
        if wanted(length, width) != 0 {
            return length;
        }
    }
}

/// Floats of any bits; of long ones only some places are drawn, which is enough to see a change.
fn lent(rng: &mut Rng, length: usize) -> Vec<f64> {
    let first = values::any_bits(rng);
    let mut floats: Vec<f64> = vec![first; length];
    for _ in 0..length.min(64) {
        let at = rng.size(0, length - 1);
        floats[at] = values::special(rng);
    }
    floats
}

/// The entries that a number of rows, or pairs, is lent to.
const ENTRIES: [&str; 6] = [
    "solve",
    "recover",
    "lp_1d",
    "normalize",
    "lp_2d_incre_max_y",
    "solve_rows",
];

/// The floats to a row of an entry, or to a pair.
fn width_of(entry: &str) -> usize {
    if entry == "lp_1d" { 2 } else { 3 }
}

/// What one call was lent, and the refusal it must get.
struct Lent {
    entry: &'static str,
    floats: Vec<f64>,
    wanted: u64,
    /// Where nothing is refused and the call is a solve: what the original does.
    trial: Option<Trial>,
}

/// A number that names no mode of normalising, at times one whose lowest byte or word does.
fn no_mode(rng: &mut Rng) -> u64 {
    rng.pick(&[
        2,
        3,
        255,
        256,
        257,
        1 << 32,
        (1 << 32) + 1,
        1 << 63,
        u64::MAX,
    ])
}

/// With `mode`, the number for normalising; else one that names a mode.
fn draw_setting(rng: &mut Rng, mode: Option<u64>) -> Setting {
    let task = Task {
        skip: rng.size(0, 3),
        normalize: rng.once_in(2),
        ..Task::plain()
    };
    let plain = Setting::of(&task, rng.pick(&[0, 1, u64::MAX]));
    Setting {
        normalize: mode.unwrap_or(plain.normalize),
        ..plain
    }
}

fn line_setting(rng: &mut Rng) -> LineSetting {
    LineSetting {
        feasibility: 1e-9,
        scale: 10.0,
        autonan: rng.once_in(2),
    }
}

/// A recovery of the prefix, whose collector holds one row.
fn recovery(upto: usize) -> Recovery {
    Recovery {
        upto,
        x: 0.0,
        y: 1.0,
        bound: 1e6,
        epsilon: 1e-9,
        reduced: 1e-8,
        first: Some(3),
        second: None,
    }
}

fn draw_call(rng: &mut Rng, entry: &str, floats: Vec<f64>, mode: Option<u64>) -> Call {
    match entry {
        "solve" => Call::solve(floats, draw_setting(rng, mode)),
        "solve_rows" => Call::rows(floats, draw_setting(rng, mode)),
        "lp_2d_incre_max_y" => Call::own(floats, draw_setting(rng, mode)),
        "lp_1d" => Call::line(floats, line_setting(rng)),
        "normalize" => Call::normalize(floats),
        // Prefixes within the rows and past them: refusals 1 and 2 come before 7.
        _ => {
            let upto = rng.pick(&[0, 1, floats.len() / 3 + 1, usize::MAX]);
            Call::recover(floats, &recovery(upto))
        }
    }
}

/// A call that is refused for its number of floats, or for its number for normalising: the first goes before the second.
fn draw_refused(rng: &mut Rng, entry: &'static str) -> Drawn<Lent> {
    let solves = matches!(entry, "solve" | "solve_rows" | "lp_2d_incre_max_y");
    let mode = (solves && rng.once_in(2)).then(|| no_mode(rng));
    let width = width_of(entry);
    let mut length = if mode.is_some() && rng.once_in(2) {
        width * rng.pick(&[0, 1, 2, 5, 64, 65, MOST_ROWS])
    } else {
        refused_length(rng, width)
    };
    if entry == "solve_rows" && !length.is_multiple_of(width) {
        length = width * (MOST_ROWS + 1);
    }
    let wanted = match wanted(length, width) {
        0 => 10,
        number => number,
    };
    let floats = lent(rng, length);
    let call = draw_call(rng, entry, floats.clone(), mode);
    let lent = Lent {
        entry,
        floats,
        wanted,
        trial: None,
    };
    (lent, vec![call])
}

/// A call with just as many rows or pairs as allowed.
fn draw_most(rng: &mut Rng, entry: &'static str) -> Drawn<Lent> {
    let solve = matches!(entry, "solve" | "solve_rows" | "lp_2d_incre_max_y");
    let task = Task {
        rows: solves::planner_rows(rng, MOST_ROWS),
        normalize: rng.once_in(2),
        ..Task::plain()
    };
    let (floats, calls, trial) = if solve {
        let floats = task.flat();
        let (trial, calls) = solves::every_form(&ORIGINAL, task);
        (floats, calls, Some(trial))
    } else if entry == "recover" {
        let call = Call::recover(task.flat(), &recovery(MOST_ROWS));
        (task.flat(), vec![call], None)
    } else {
        let floats = lent(rng, width_of(entry) * MOST_ROWS);
        let call = draw_call(rng, entry, floats.clone(), None);
        (floats, vec![call], None)
    };
    let lent = Lent {
        entry,
        floats,
        wanted: 0,
        trial,
    };
    (lent, calls)
}

/// Seldom a call that is taken, since it costs as much as a thousand that are refused.
fn draw(rng: &mut Rng, case: u64) -> Drawn<Lent> {
    let entry = ENTRIES[(case % 6) as usize];
    if matches!(case % 997, 2 | 3) {
        draw_most(rng, entry)
    } else {
        draw_refused(rng, entry)
    }
}

/// Whether a call was refused with that number, and left all that was lent to it as it was.
fn is_refused(lent: &Lent, call: &Call) -> bool {
    let number = lent.wanted;
    match call {
        Call::Solve { rows, out, .. } | Call::Rows { rows, out, .. } => {
            out.same_words(&Solved::refused(number, 0)) && same_bits(&lent.floats, rows)
        }
        Call::Own { rows, out, .. } => {
            out.same_words(&Solution::refused(number)) && same_bits(&lent.floats, rows)
        }
        Call::Normalize { rows, refusal } => *refusal == number && same_bits(&lent.floats, rows),
        Call::Line { out, .. } => out.same_words(&Pair::refused(number)),
        Call::Recover { out, .. } => {
            out.same_words(&RecoveredPoint::of(number, None, (Some(3), None)))
        }
        _ => false,
    }
}

/// With just as many rows or pairs as allowed, an entry must do what the original does.
fn judge_accepted(lent: &Lent, calls: &[Call]) -> Result<(), String> {
    let rows = || -> Vec<Row> {
        let (planes, _) = lent.floats.as_chunks::<3>();
        planes.iter().map(|&[a, b, c]| (a, b, c)).collect()
    };
    let case = match (&calls[0], &lent.trial) {
        (_, Some(trial)) => return solves::judge(trial, calls),
        (Call::Line { setting, .. }, _) => {
            let (pairs, _) = lent.floats.as_chunks::<2>();
            Case::Line(pairs.iter().map(|&[a, b]| (a, b)).collect(), *setting)
        }
        (Call::Recover { .. }, _) => Case::Recover(rows(), recovery(MOST_ROWS)),
        _ => Case::Normalize(rows()),
    };
    case.judge(&ORIGINAL, calls)
}

fn judge(lent: &Lent, calls: &[Call]) -> Result<(), String> {
    if lent.wanted == 0 {
        return judge_accepted(lent, calls);
    }
    if is_refused(lent, &calls[0]) {
        return Ok(());
    }
    let told: String = format!("{:?}", calls[0]).chars().rev().take(300).collect();
    Err(format!(
        "{} with {} floats: not refusal {} with all lent unchanged, but {}",
        lent.entry,
        lent.floats.len(),
        lent.wanted,
        told.chars().rev().collect::<String>()
    ))
}

pub fn refusals(kernel: &mut Kernel, rng: &mut Rng, cases: u64) -> Verdict {
    let kind = Kind {
        at_once: 40,
        draw: &draw,
        judge: &judge,
        tell: &|lent: &Lent, what| {
            let floats = hex_all(&lent.floats);
            differs_on_line(
                what,
                format!("{} {} {floats}", lent.entry, lent.floats.len()),
            )
        },
    };
    batch::run(&kind, kernel, rng, cases)
}
