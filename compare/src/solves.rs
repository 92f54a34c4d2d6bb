//! Solves: families of inputs, and the comparison of one solve with everything it leaves.

use crate::batch::{self, Drawn, Kind};
use crate::kernel::{Call, Kernel};
use crate::original::{Answer, Edition, UNMODIFIED};
use crate::probe::{self, Run};
use crate::records::{Record, Setting, Solution, Solved};
use crate::report::{Difference, Verdict, differs_on_records, hex_all, row_text};
use crate::rng::Rng;
use crate::same::{all_alike, same, same_bits};
use crate::standard::{ORIGINAL, Standard};
use crate::task::{Row, Task, flat};
use crate::values;

/// An allowance that no count reaches.
pub const ENOUGH: u64 = u64::MAX;

/// What a copy of the original does with a task.
#[derive(Debug)]
pub struct Expected {
    pub answer: Answer,
    pub rows: Vec<Row>,
    pub run: Run,
}

/// The task as the copies of a standard are given it: the numbers that reach their `min` and `max` as they are.
fn as_given(by: &Standard, task: &Task) -> Task {
    Task {
        feasibility: (by.given)(task.feasibility),
        x0: (by.given)(task.x0),
        y0: (by.given)(task.y0),
        ..task.clone()
    }
}

fn solved(copy: &dyn Edition, task: &Task) -> Expected {
    let mut rows = task.rows.clone();
    probe::start();
    let answer = copy.solve(&mut rows, task);
    let run = probe::finish();
    Expected { answer, rows, run }
}

/// What both copies of a standard do, which must agree: on the numbers by value, on the rows bit by bit, on the active rows, and
/// on what they counted where both do.
pub fn expect(by: &Standard, task: &Task) -> Result<Expected, String> {
    let task = &as_given(by, task);
    let [first, second] = by.ask(|copy| solved(copy, task))?;
    let (own, other) = (&first.answer, &second.answer);
    let agree = by.agree(&[own.x, own.y], &[other.x, other.y])
        && (own.first, own.second) == (other.first, other.second)
        && same_bits(&flat(&first.rows), &flat(&second.rows))
        && (first.run == second.run || !by.both_count);
    if agree {
        let run = second.run;
        return Ok(Expected { run, ..first });
    }
    Err(format!(
        "two copies of the original do not agree: {first:?} and {second:?}"
    ))
}

/// The source's own entry, without collector, must answer what the solve with a collector answers.
fn check_silent(task: &Task, expected: &Expected) -> Result<(), String> {
    let task = &as_given(&ORIGINAL, task);
    let mut rows = task.rows.clone();
    let (x, y) = UNMODIFIED.solve_silent(&mut rows, task);
    let answer = &expected.answer;
    let same_rows = same_bits(&flat(&rows), &flat(&expected.rows));
    if same(x, answer.x) && same(y, answer.y) && same_rows {
        Ok(())
    } else {
        Err("the original's own entry answers otherwise than with a collector".to_string())
    }
}

/// 1 point, 2 level, 3 across, 4 nothing.
pub fn kind_of(x: f64, y: f64) -> u64 {
    match (x.is_nan(), y.is_nan()) {
        (false, false) => 1,
        (true, false) => 2,
        (false, true) => 3,
        (true, true) => 4,
    }
}

/// Rows after the first `times` normalisations must be the original's; rows that were not normalised keep all bits.
fn check_rows(trial: &Trial, times: usize, kernel_rows: &[f64]) -> Result<(), String> {
    let mut rows = trial.task.rows.clone();
    for _ in 0..times {
        trial.by.first().normalize(&mut rows);
    }
    let wanted = flat(&rows);
    let right = if times == 0 {
        same_bits(&wanted, kernel_rows)
    } else {
        all_alike(trial.by.alike, &wanted, kernel_rows)
    };
    if right {
        Ok(())
    } else {
        Err(format!("rows differ after {times} normalisations"))
    }
}

/// Kind, numbers and rows must be the original's.
fn judge_answer(
    trial: &Trial,
    expected: &Expected,
    rows: &[f64],
    got: &Solution,
) -> Result<(), String> {
    let (answer, alike) = (&expected.answer, trial.by.alike);
    if got.refusal != 0 {
        return Err(format!("refusal {} in place of an answer", got.refusal));
    }
    let numbers = all_alike(alike, &[answer.x, answer.y], &[got.x, got.y]);
    if got.kind != kind_of(answer.x, answer.y) || !numbers {
        return Err(format!(
            "answer kind {} ({:?}, {:?}), {}; wanted is ({:?}, {:?})",
            got.kind,
            got.x,
            got.y,
            hex_all(&[got.x, got.y]),
            answer.x,
            answer.y
        ));
    }
    if expected.run.normalisations == 0 {
        check_rows(trial, 0, rows)
    } else if all_alike(alike, &flat(&expected.rows), rows) {
        Ok(())
    } else {
        Err("rows differ after the solve".to_string())
    }
}

/// Everything must be the original's.
fn judge_finished(
    trial: &Trial,
    expected: &Expected,
    rows: &[f64],
    got: &Solved,
) -> Result<(), String> {
    let numbers = Solution {
        refusal: got.refusal,
        kind: got.kind,
        x: got.x,
        y: got.y,
    };
    judge_answer(trial, expected, rows, &numbers)?;
    let answer = &expected.answer;
    if got.rows() != (answer.first, answer.second) {
        let (first, second) = got.rows();
        return Err(format!(
            "active rows {} {}; wanted are {} {}",
            row_text(first),
            row_text(second),
            row_text(answer.first),
            row_text(answer.second)
        ));
    }
    if !got.absent_rows_are_zero() {
        return Err("a row that there is not has a number".to_string());
    }
    if got.count != expected.run.readings {
        return Err(format!(
            "count {}; the readings are {}",
            got.count, expected.run.readings
        ));
    }
    Ok(())
}

/// The solve must have stopped, with the allowance as its count and nothing else in its answer, and left the rows as after
/// the last normalisation that fitted.
fn judge_stopped(
    trial: &Trial,
    run: &Run,
    allowance: u64,
    rows: &[f64],
    got: &Solved,
) -> Result<(), String> {
    if !got.same_words(&Solved::refused(3, allowance)) {
        return Err(format!("{got:?} in place of refusal 3"));
    }
    let fitted = run.normalised_at[..run.normalisations]
        .iter()
        .filter(|&&at| at <= allowance)
        .count();
    check_rows(trial, fitted, rows)
}

/// Judges a call of the solve, finished or stopped by its allowance.
fn judge_solve(
    trial: &Trial,
    expected: &Expected,
    rows: &[f64],
    allowance: u64,
    out: &Solved,
) -> Result<(), String> {
    let count = expected.run.readings;
    let judged = if count > allowance {
        judge_stopped(trial, &expected.run, allowance, rows, out)
    } else {
        judge_finished(trial, expected, rows, out)
    };
    judged.map_err(|what| format!("{what} (allowance {allowance}, count {count})"))
}

fn judge_call(trial: &Trial, expected: &Expected, call: &Call) -> Result<(), String> {
    match call {
        Call::Solve { rows, setting, out } => {
            judge_solve(trial, expected, rows, setting.allowance, out)
        }
        Call::Rows { rows, setting, out } => {
            judge_solve(trial, expected, rows, setting.allowance, out)
                .map_err(|what| format!("{what} (over row records)"))
        }
        Call::Own { rows, out, .. } => judge_answer(trial, expected, rows, out)
            .map_err(|what| format!("{what} (the source's own entry)")),
        _ => Err("not a solve".to_string()),
    }
}

/// Allowances at the count, about it and below it, and at the edges of normalisations, where rows change.
fn some_allowances(run: &Run, rng: &mut Rng) -> Vec<u64> {
    let count = run.readings;
    let mut allowances = vec![count, count + 1];
    if count > 0 {
        allowances.extend([count - 1, 0, rng.below(count)]);
    }
    for &at in &run.normalised_at[..run.normalisations] {
        allowances.extend([at, at - 1]);
    }
    allowances
}

/// A task with what it is held to, or with what went wrong there.
pub struct Trial {
    pub task: Task,
    by: &'static Standard,
    expected: Result<Expected, String>,
}

/// Runs the original on a task and names the calls of the kernel; with `allowances` also at and below its count.
fn trial(task: Task, allowances: bool, rng: &mut Rng) -> Drawn<Trial> {
    let by = &ORIGINAL;
    let expected = expect(by, &task).and_then(|expected| {
        if allowances {
            check_silent(&task, &expected)?;
        }
        Ok(expected)
    });
    let mut given = vec![ENOUGH];
    if let (true, Ok(expected)) = (allowances, &expected) {
        given.extend(some_allowances(&expected.run, rng));
    }
    let mut calls: Vec<Call> = given
        .iter()
        .map(|&allowance| Call::solve(task.flat(), Setting::of(&task, allowance)))
        .collect();
    if allowances {
        calls.push(Call::own(task.flat(), Setting::of(&task, 0)));
        calls.push(Call::rows(task.flat(), Setting::of(&task, ENOUGH)));
        let last = given[given.len() - 1];
        calls.push(Call::rows(task.flat(), Setting::of(&task, last)));
    }
    (Trial { task, by, expected }, calls)
}

/// A task that every form of the solve takes, each with all the readings that it needs.
pub(crate) fn every_form(by: &'static Standard, task: Task) -> Drawn<Trial> {
    let expected = expect(by, &task);
    let setting = Setting::of(&task, ENOUGH);
    let calls = vec![
        Call::solve(task.flat(), setting),
        Call::rows(task.flat(), setting),
        Call::own(task.flat(), setting),
    ];
    (Trial { task, by, expected }, calls)
}

pub(crate) fn judge(trial: &Trial, calls: &[Call]) -> Result<(), String> {
    let expected = trial.expected.as_ref().map_err(String::clone)?;
    calls
        .iter()
        .try_for_each(|call| judge_call(trial, expected, call))
}

/// Compares one solve, at and below its count too.
pub fn check(task: &Task, kernel: &mut Kernel, rng: &mut Rng) -> Result<(), String> {
    let (trial, mut calls) = trial(task.clone(), true, rng);
    kernel.make(&mut calls)?;
    judge(&trial, &calls)
}

/// Values that a shrunk input may have in place of its own, simplest first.
const SIMPLE: [f64; 6] = [0.0, 1.0, -1.0, 2.0, -2.0, 0.5];

/// Makes a failing task smaller while it goes on failing.
pub fn shrink(task: &Task, fails: &dyn Fn(&Task) -> bool) -> Task {
    let mut small = task.clone();
    loop {
        let before = format!("{small:?}");
        shrink_rows(&mut small, fails);
        shrink_setting(&mut small, fails);
        shrink_numbers(&mut small, fails);
        if format!("{small:?}") == before {
            return small;
        }
    }
}

fn keep_if_failing(small: &mut Task, tried: Task, fails: &dyn Fn(&Task) -> bool) -> bool {
    let kept = fails(&tried);
    if kept {
        *small = tried;
    }
    kept
}

fn shrink_rows(small: &mut Task, fails: &dyn Fn(&Task) -> bool) {
    let mut at = small.rows.len();
    while at > 0 {
        at -= 1;
        let mut tried = small.clone();
        tried.rows.remove(at);
        keep_if_failing(small, tried, fails);
    }
}

fn shrink_setting(small: &mut Task, fails: &dyn Fn(&Task) -> bool) {
    let plain = Task::plain();
    let changes: [fn(&mut Task, &Task); 6] = [
        |task, plain| task.normalize = plain.normalize,
        |task, plain| task.skip = plain.skip,
        |task, plain| task.x0 = plain.x0,
        |task, plain| task.y0 = plain.y0,
        |task, plain| task.feasibility = plain.feasibility,
        |task, plain| task.scale = plain.scale,
    ];
    for change in changes {
        let mut tried = small.clone();
        change(&mut tried, &plain);
        keep_if_failing(small, tried, fails);
    }
}

fn shrink_numbers(small: &mut Task, fails: &dyn Fn(&Task) -> bool) {
    let numbers: [fn(&mut Row) -> &mut f64; 3] =
        [|row| &mut row.0, |row| &mut row.1, |row| &mut row.2];
    for at in 0..small.rows.len() {
        for number in numbers {
            let own = number(&mut small.rows[at]).to_bits();
            for value in SIMPLE.into_iter().take_while(|x| x.to_bits() != own) {
                let mut tried = small.clone();
                *number(&mut tried.rows[at]) = value;
                if keep_if_failing(small, tried, fails) {
                    break;
                }
            }
        }
    }
}

/// One in this many solves is also run at and below its count.
const ALLOWANCES_EVERY: u64 = 5;

/// Draws tasks and compares them; a difference is made small before it is handed on.
pub fn compare(
    make: fn(&mut Rng) -> Task,
    kernel: &mut Kernel,
    rng: &mut Rng,
    cases: u64,
) -> Verdict {
    let kind = Kind {
        at_once: 64,
        draw: &|rng, case| {
            let task = make(rng);
            trial(task, case % ALLOWANCES_EVERY == 0, rng)
        },
        judge: &judge,
        tell: &|trial: &Trial, what| {
            let check = |task: &Task, kernel: &mut Kernel| check(task, kernel, &mut Rng::new(1, 1));
            small_difference(&trial.task, what, check)
        },
    };
    batch::run(&kind, kernel, rng, cases)
}

/// Compares one task.
type Check = fn(&Task, &mut Kernel) -> Result<(), String>;

/// A difference, on the task made small as long as the check fails.
pub(crate) fn small_difference(task: &Task, what: String, check: Check) -> Box<Difference> {
    // What differs on a task: none where the kernel cannot be run.
    let difference_on = |task: &Task| {
        let mut kernel = Kernel::new().ok()?;
        check(task, &mut kernel).err()
    };
    let fails = |tried: &Task| difference_on(tried).is_some();
    let small = if fails(task) {
        shrink(task, &fails)
    } else {
        task.clone()
    };
    let why = difference_on(&small).unwrap_or(what);
    differs_on_records(format!("{why}\n{small:?}"), small.record(ENOUGH))
}

// ---- families ----

/// The families but the one of very many rows.
pub const SHORT: [fn(&mut Rng) -> Task; 16] = [
    random, parallel, duplicated, scaled, grid, planner, special, zeros, warm, skips, tolerances,
    any_bits, edges, thresholds, coincident, boxes,
];

/// Mostly a few rows, seldom up to 64.
fn some_size(rng: &mut Rng) -> usize {
    match rng.below(16) {
        0 => rng.size(0, 2),
        1..=9 => rng.size(2, 8),
        10..=14 => rng.size(2, 24),
        _ => rng.size(2, 64),
    }
}

/// Tolerance, scale, start, skip and mode as a caller would have them, with some variety.
fn usual_setting(rng: &mut Rng) -> Task {
    let mut task = Task::plain();
    task.normalize = rng.once_in(3);
    if rng.once_in(4) {
        task.feasibility = rng.pick(&[1e-9, 1e-6, 1e-3, 1e-12, 0.1, 0.0]);
    }
    if rng.once_in(6) {
        task.scale = rng.pick(&[1.0, 10.0, 100.0, 0.1, 0.0]);
    }
    if rng.once_in(3) {
        task.x0 = values::ordinary(rng);
        task.y0 = values::ordinary(rng);
    }
    task
}

/// Rows of everyday numbers.
pub fn random(rng: &mut Rng) -> Task {
    let mut task = usual_setting(rng);
    let size = some_size(rng);
    task.rows = (0..size)
        .map(|_| {
            (
                values::ordinary(rng),
                values::ordinary(rng),
                values::ordinary(rng),
            )
        })
        .collect();
    task
}

/// Rows whose normals differ in the last digits only, some turned about.
pub fn parallel(rng: &mut Rng) -> Task {
    let mut task = usual_setting(rng);
    let (a, b, c) = (
        values::ordinary(rng),
        values::ordinary(rng),
        values::ordinary(rng),
    );
    let spread = 10f64.powi(rng.whole(-17, -6) as i32);
    let size = some_size(rng);
    task.rows = (0..size)
        .map(|_| {
            let sign = rng.sign();
            let by = |rng: &mut Rng, value: f64| value * (1.0 + spread * rng.between(-1.0, 1.0));
            let right = if rng.once_in(3) {
                values::ordinary(rng)
            } else {
                by(rng, c)
            };
            (sign * by(rng, a), sign * by(rng, b), sign * right)
        })
        .collect();
    task
}

/// A few rows, each many times over, some scaled or a unit in the last place away.
pub fn duplicated(rng: &mut Rng) -> Task {
    let mut task = usual_setting(rng);
    let kinds = rng.size(1, 3);
    let bases: Vec<Row> = (0..kinds)
        .map(|_| {
            (
                values::ordinary(rng),
                values::ordinary(rng),
                values::ordinary(rng),
            )
        })
        .collect();
    let size = some_size(rng);
    task.rows = (0..size)
        .map(|_| {
            let (a, b, c) = rng.pick(&bases);
            match rng.below(4) {
                0 => {
                    let by = rng.pick(&[2.0, 3.0, 0.1, -1.0, 7.0]);
                    (by * a, by * b, by * c)
                }
                1 => (a, b, values::neighbour(rng, c)),
                2 => (values::neighbour(rng, a), b, c),
                _ => (a, b, c),
            }
        })
        .collect();
    task
}

/// Everyday rows, each multiplied by a power of two or ten.
pub fn scaled(rng: &mut Rng) -> Task {
    let mut task = random(rng);
    let one = values::power(rng);
    let alike = rng.once_in(3);
    for row in &mut task.rows {
        let by = if alike { one } else { values::power(rng) };
        *row = (row.0 * by, row.1 * by, row.2 * by);
        if rng.once_in(8) {
            row.2 = values::ordinary(rng) * values::power(rng);
        }
    }
    if rng.once_in(4) {
        task.x0 = values::ordinary(rng) * values::power(rng);
        task.y0 = values::ordinary(rng) * values::power(rng);
    }
    if rng.once_in(8) {
        task.feasibility = values::power(rng);
    }
    task
}

/// Small whole numbers with tolerances of their size: steps fail within tolerance, so recovery runs.
pub fn grid(rng: &mut Rng) -> Task {
    let mut task = Task::plain();
    let reach = rng.pick(&[1, 2, 3, 5]);
    let size = rng.size(2, 16);
    task.rows = (0..size)
        .map(|_| {
            (
                rng.whole(-reach, reach) as f64,
                rng.whole(-reach, reach) as f64,
                rng.whole(-2 * reach, 2 * reach) as f64,
            )
        })
        .collect();
    task.feasibility = rng.pick(&[0.25, 0.5, 1.0, 1.5, 2.0, 3.0, 8.0]);
    task.scale = rng.pick(&[10.0, 1.0, 0.1, 0.01, 0.0, -0.1, -1.0]);
    task.x0 = rng.whole(-6, 6) as f64 * rng.pick(&[1.0, 0.5]);
    task.y0 = rng.whole(-6, 6) as f64 * rng.pick(&[1.0, 0.5]);
    task.normalize = rng.once_in(5);
    if rng.once_in(6) {
        task.y0 = 1e6;
    }
    task
}

/// The rows of a speed planner: pairs of opposite normals around the origin, and ceilings.
pub fn planner_rows(rng: &mut Rng, size: usize) -> Vec<Row> {
    let mut rows = Vec::with_capacity(size);
    while rows.len() < size {
        if rng.once_in(5) {
            rows.push((0.0, 1.0, rng.between(0.1, 50.0)));
            continue;
        }
        let (a, b) = (rng.between(-3.0, 3.0), rng.between(-3.0, 3.0));
        rows.push((a, b, rng.between(0.5, 20.0)));
        if rows.len() < size {
            rows.push((-a, -b, rng.between(0.5, 20.0)));
        }
    }
    rows
}

pub fn planner(rng: &mut Rng) -> Task {
    let mut task = Task::plain();
    let size = some_size(rng);
    task.rows = planner_rows(rng, size);
    task.normalize = rng.once_in(2);
    if rng.once_in(4) {
        task.y0 = rng.between(0.0, 60.0);
        task.skip = rng.size(0, size);
    }
    task
}

/// Everyday rows into which NaN, infinite, subnormal, zero and extreme numbers are put.
pub fn special(rng: &mut Rng) -> Task {
    let mut task = random(rng);
    let often = rng.pick(&[2, 4, 10]);
    for row in &mut task.rows {
        for number in [&mut row.0, &mut row.1, &mut row.2] {
            if rng.once_in(often) {
                *number = values::special(rng);
            }
        }
    }
    if rng.once_in(6) {
        task.x0 = values::special(rng);
    }
    if rng.once_in(6) {
        task.y0 = values::special(rng);
    }
    if rng.once_in(10) {
        task.feasibility = values::special(rng);
    }
    task
}

/// Zeros of both signs, ones and the smallest numbers.
pub fn zeros(rng: &mut Rng) -> Task {
    let mut task = Task::plain();
    let parts = [
        0.0, -0.0, 1.0, -1.0, 0.0, -0.0, 5e-324, -5e-324, 1e-9, -1e-9, 2e-9,
    ];
    let size = rng.size(0, 10);
    task.rows = (0..size)
        .map(|_| (rng.pick(&parts), rng.pick(&parts), rng.pick(&parts)))
        .collect();
    task.x0 = rng.pick(&parts);
    task.y0 = rng.pick(&[0.0, -0.0, 1.0, -1.0, 1e6]);
    task.feasibility = rng.pick(&[1e-9, 0.0, -0.0, 1.0, 0.5, -1e-9]);
    task.scale = rng.pick(&[10.0, 0.0, -0.0, 1.0]);
    task.normalize = rng.once_in(3);
    task
}

/// Starts inside and outside the box, on its edges, NaN and infinite.
pub fn warm(rng: &mut Rng) -> Task {
    let mut task = random(rng);
    let start = |rng: &mut Rng| match rng.below(10) {
        0 => values::nan(rng),
        1 => f64::INFINITY * rng.sign(),
        2 => 1e6,
        3 => values::neighbour(rng, 1e6) * rng.sign(),
        4 => rng.between(-2e6, 2e6),
        5 => values::ordinary(rng) * values::power(rng),
        6 => rng.pick(&[1e9, -1e9, 1e24, 1e306, -1e306, f64::MAX, 5e5, -5e5, 1e7]),
        _ => values::ordinary(rng),
    };
    task.x0 = start(rng);
    task.y0 = if rng.once_in(3) { 1e6 } else { start(rng) };
    task.skip = some_skip(rng, task.rows.len());
    task
}

fn some_skip(rng: &mut Rng, size: usize) -> usize {
    match rng.below(8) {
        0 => size,
        1 => size + 1,
        2 => size.saturating_sub(1),
        3 => rng.pick(&[usize::MAX, usize::MAX - 1, 1 << 63, 1 << 32, 4096, 4097]),
        4 | 5 => rng.size(0, size),
        _ => 0,
    }
}

/// Skips up to, at and past the end; the rows left out are found by deferred rounds.
pub fn skips(rng: &mut Rng) -> Task {
    let mut task = match rng.below(4) {
        0 => planner(rng),
        1 => grid(rng),
        2 => parallel(rng),
        _ => random(rng),
    };
    task.x0 = values::ordinary(rng);
    task.y0 = values::ordinary(rng);
    task.skip = some_skip(rng, task.rows.len());
    task
}

/// Tolerances and scales that no caller should give.
pub fn tolerances(rng: &mut Rng) -> Task {
    let mut task = match rng.below(4) {
        0 => grid(rng),
        1 => planner(rng),
        2 => duplicated(rng),
        _ => random(rng),
    };
    let odd = |rng: &mut Rng| match rng.below(8) {
        0 => values::nan(rng),
        1 => f64::INFINITY * rng.sign(),
        2 => values::zero(rng),
        3 => -values::ordinary(rng).abs(),
        4 => values::power(rng) * rng.sign(),
        5 => values::subnormal(rng),
        6 => values::edge(rng),
        _ => values::ordinary(rng),
    };
    task.feasibility = odd(rng);
    if rng.once_in(2) {
        task.scale = odd(rng);
    }
    task
}

/// Any bits in every place.
pub fn any_bits(rng: &mut Rng) -> Task {
    let size = rng.size(0, 12);
    Task {
        rows: (0..size)
            .map(|_| {
                (
                    values::any_bits(rng),
                    values::any_bits(rng),
                    values::any_bits(rng),
                )
            })
            .collect(),
        feasibility: values::any_bits(rng),
        scale: values::any_bits(rng),
        x0: values::any_bits(rng),
        y0: values::any_bits(rng),
        skip: if rng.once_in(4) {
            rng.bits() as usize
        } else {
            rng.size(0, 3)
        },
        normalize: rng.once_in(2),
    }
}

/// Numbers at the source's own constants and next to them.
pub fn edges(rng: &mut Rng) -> Task {
    let mut task = usual_setting(rng);
    let number = |rng: &mut Rng| match rng.below(3) {
        0 => values::edge(rng),
        1 => {
            let near = values::edge(rng);
            values::neighbour(rng, near)
        }
        _ => rng.whole(-2, 2) as f64,
    };
    let size = rng.size(0, 10);
    task.rows = (0..size)
        .map(|_| (number(rng), number(rng), number(rng)))
        .collect();
    task.x0 = number(rng);
    task.y0 = number(rng);
    if rng.once_in(3) {
        task.feasibility = number(rng);
    }
    task
}

/// Rows whose residual at the start lies at the rounding level of their terms, a unit in the last place either way, or at the
/// tolerance.
pub fn thresholds(rng: &mut Rng) -> Task {
    let mut task = usual_setting(rng);
    task.normalize = rng.once_in(10);
    task.x0 = values::ordinary(rng);
    task.y0 = values::ordinary(rng);
    let size = rng.size(2, 8);
    task.rows = (0..size)
        .map(|_| {
            let (a, b) = (values::ordinary(rng), values::ordinary(rng));
            let (ax, by) = (a * task.x0, b * task.y0);
            let at = ax + by;
            let level = 1e-13 * (ax.abs() + by.abs() + at.abs());
            let off = match rng.below(4) {
                0 => task.feasibility,
                1 => task.feasibility * 0.25,
                _ => level,
            };
            (a, b, values::neighbour(rng, at - off))
        })
        .collect();
    task
}

/// Rows that nearly meet in one point, off it by about the tolerance: the trial fails and recovery adjudicates.
pub fn coincident(rng: &mut Rng) -> Task {
    let mut task = Task::plain();
    task.feasibility = rng.pick(&[1e-9, 1e-6, 1e-12, 1e-3, 1e-10]);
    task.scale = rng.pick(&[10.0, 1.0, 0.01, 0.0, 1e-3]);
    let off = task.feasibility * rng.pick(&[0.5, 2.0, 8.0, 0.1]);
    let (x, y) = (values::ordinary(rng), values::ordinary(rng));
    let wide = rng.once_in(2);
    let size = rng.size(2, 14);
    let few = rng.size(1, 4);
    let normals: Vec<(f64, f64)> = (0..few)
        .map(|_| {
            if rng.once_in(3) {
                (rng.whole(-2, 2) as f64, rng.whole(-2, 2) as f64)
            } else {
                (rng.between(-1.0, 1.0), rng.between(-1.0, 1.0))
            }
        })
        .collect();
    task.rows = (0..size)
        .map(|_| {
            let (mut a, mut b) = rng.pick(&normals);
            let turn = rng.sign();
            let by = if wide {
                turn * 10f64.powi(rng.whole(-3, 9) as i32)
            } else {
                turn
            };
            a *= by;
            b *= by;
            if rng.once_in(4) {
                a += off * rng.between(-2.0, 2.0);
            }
            (a, b, a * x + b * y + off * rng.between(-1.0, 1.0))
        })
        .collect();
    task.x0 = x;
    task.y0 = y;
    if rng.once_in(4) {
        task.x0 += off * rng.between(-4.0, 4.0);
        task.y0 += off * rng.between(-1.0, 1.0);
    }
    if rng.once_in(10) {
        task.x0 = values::special(rng);
    }
    if rng.once_in(10) {
        task.y0 = 1e6;
    }
    task.normalize = rng.once_in(6);
    task
}

/// Answers far out, where the box has to grow or the start has set it.
pub fn boxes(rng: &mut Rng) -> Task {
    let mut task = Task::plain();
    let far = |rng: &mut Rng| rng.between(0.1, 2.0) * 10f64.powi(rng.whole(4, 26) as i32);
    let size = rng.size(2, 8);
    task.rows = (0..size)
        .map(|_| match rng.below(4) {
            0 => (rng.between(-1e-3, 1e-3), rng.between(-1.0, 1.0), far(rng)),
            1 => (rng.between(-1.0, 1.0), rng.between(-1e-6, 1e-6), far(rng)),
            2 => (rng.sign(), 0.0, far(rng)),
            _ => (values::ordinary(rng), values::ordinary(rng), far(rng)),
        })
        .collect();
    if rng.once_in(3) {
        task.y0 = rng.pick(&[1e6, 5e5, 1e7, 1e9, 1e24]);
        task.x0 = rng.pick(&[0.0, 1e6, -1e6, 1e7, 1e12, -1e15]);
    }
    task.normalize = rng.once_in(3);
    task
}

/// Planner rows, in numbers up to the limit; some with everyday rows among them.
pub fn large(rng: &mut Rng) -> Task {
    let mut task = Task::plain();
    let size = match rng.below(4) {
        0 => 4096,
        1 => rng.size(2048, 4096),
        _ => rng.size(65, 2048),
    };
    task.rows = planner_rows(rng, size);
    if rng.once_in(3) {
        for row in task.rows.iter_mut().skip(size / 2) {
            *row = (
                values::ordinary(rng),
                values::ordinary(rng),
                values::ordinary(rng).abs(),
            );
        }
    }
    if rng.once_in(5) {
        task.rows.truncate(256);
        task.rows
            .iter_mut()
            .for_each(|row| row.2 = rng.whole(0, 3) as f64);
        task.feasibility = 0.5;
    }
    task.normalize = rng.once_in(2);
    task.skip = if rng.once_in(4) {
        some_skip(rng, size)
    } else {
        0
    };
    task
}
