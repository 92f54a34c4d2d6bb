//! Cases in batches: drawn, called and judged.

use crate::kernel::{Call, Kernel};
use crate::report::{Difference, Verdict, differs_on_line};
use crate::rng::Rng;

/// A case with the calls that it needs.
pub type Drawn<C> = (C, Vec<Call>);

/// Judges a case by what its calls left.
pub type Judge<'a, C> = &'a dyn Fn(&C, &[Call]) -> Result<(), String>;

/// How one kind of case is drawn, judged by what its calls left, and told where it differs.
pub struct Kind<'a, C> {
    /// The number of cases whose calls are made together.
    pub at_once: u64,
    pub draw: &'a dyn Fn(&mut Rng, u64) -> Drawn<C>,
    pub judge: Judge<'a, C>,
    pub tell: &'a dyn Fn(&C, String) -> Box<Difference>,
}

fn run_batch<C>(kind: &Kind<C>, kernel: &mut Kernel, drawn: Vec<Drawn<C>>) -> Verdict {
    let mut calls = Vec::new();
    let mut cases = Vec::new();
    for (case, own) in drawn {
        let begin = calls.len();
        calls.extend(own);
        cases.push((case, begin..calls.len()));
    }
    if let Err(what) = kernel.make(&mut calls) {
        return Err(differs_on_line(what, "(a batch)".to_string()));
    }
    for (case, own) in cases {
        if let Err(what) = (kind.judge)(&case, &calls[own]) {
            return Err((kind.tell)(&case, what));
        }
    }
    Ok(())
}

/// Runs that many cases.
pub fn run<C>(kind: &Kind<C>, kernel: &mut Kernel, rng: &mut Rng, cases: u64) -> Verdict {
    let mut done = 0;
    while done < cases {
        let now = kind.at_once.min(cases - done);
        let drawn = (0..now).map(|i| (kind.draw)(rng, done + i)).collect();
        run_batch(kind, kernel, drawn)?;
        done += now;
    }
    Ok(())
}
