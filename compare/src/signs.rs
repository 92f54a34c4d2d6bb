//! Signs of zeros: solves of which every bit is held to the copy whose `min` and `max` order zeros.

use crate::batch::{self, Kind};
use crate::kernel::Kernel;
use crate::report::Verdict;
use crate::rng::Rng;
use crate::solves::{self, Trial};
use crate::standard::SIGNS;
use crate::task::{Row, Task};
use crate::values;

/// A zero of either sign, or a small whole number, at times halved.
fn small(rng: &mut Rng) -> f64 {
    if rng.once_in(2) {
        values::zero(rng)
    } else {
        rng.whole(-3, 3) as f64 * rng.pick(&[1.0, -1.0, 0.5])
    }
}

/// A ceiling at a zero, a wall, a row that the start lies on, or any row of small numbers.
fn some_row(rng: &mut Rng, task: &Task) -> Row {
    let (a, b) = (small(rng), small(rng));
    match rng.below(4) {
        0 => (a, b.abs().max(1.0), values::zero(rng)),
        1 => (rng.sign(), values::zero(rng), small(rng)),
        2 => (a, b, a * task.x0 + b * task.y0),
        _ => (a, b, small(rng)),
    }
}

/// Zeros of both signs in rows, start, tolerance and scale, among small whole numbers, with tolerances of their size: answers,
/// levels that are lowered or kept, and recoveries are often at a zero.
pub fn signed_zeros(rng: &mut Rng) -> Task {
    let mut task = Task::plain();
    task.x0 = small(rng);
    task.y0 = match rng.below(4) {
        0 => 1e6,
        1 => small(rng),
        _ => values::zero(rng),
    };
    task.feasibility = rng.pick(&[1e-9, 0.25, 0.5, 1.0, 2.0, 0.0, -0.0]);
    task.scale = rng.pick(&[10.0, 1.0, 0.1, 0.0, -0.0, -1.0]);
    task.normalize = rng.once_in(5);
    let size = rng.size(2, 8);
    task.rows = (0..size).map(|_| some_row(rng, &task)).collect();
    task.skip = if rng.once_in(8) { rng.size(0, size) } else { 0 };
    task
}

/// Tasks of every family of solves, those with zeros most often, those of very many rows seldom.
fn some_task(rng: &mut Rng) -> Task {
    if !rng.once_in(3) {
        signed_zeros(rng)
    } else if rng.once_in(10_000) {
        solves::large(rng)
    } else {
        rng.pick(&solves::SHORT)(rng)
    }
}

/// Compares one solve by every form, all bits.
pub fn check(task: &Task, kernel: &mut Kernel) -> Result<(), String> {
    let (trial, mut calls) = solves::every_form(&SIGNS, task.clone());
    kernel.make(&mut calls)?;
    solves::judge(&trial, &calls)
}

/// Draws tasks and compares them.
pub fn signs(kernel: &mut Kernel, rng: &mut Rng, cases: u64) -> Verdict {
    let kind = Kind {
        at_once: 64,
        draw: &|rng, _| {
            let task = some_task(rng);
            solves::every_form(&SIGNS, task)
        },
        judge: &solves::judge,
        tell: &|trial: &Trial, what| solves::small_difference(&trial.task, what, check),
    };
    batch::run(&kind, kernel, rng, cases)
}
