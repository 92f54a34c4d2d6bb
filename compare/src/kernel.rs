//! The entries of the kernel's static library, called in batches.
//!
//! On x86-64 the library is linked and called directly. On another processor it runs in a program of its own under an
//! emulator, and a batch goes there and back through pipes. Either way a call carries the rows lent to the entry and the record
//! given to it, and holds afterwards what the entry left in the rows and the record that it answered.

#[cfg(not(direct))]
mod bridge;
#[cfg(direct)]
pub mod direct;

#[cfg(not(direct))]
use bridge as back;
#[cfg(direct)]
use direct as back;

use std::collections::BTreeSet;
use std::sync::Mutex;

use crate::link::{Left, Session};
use crate::original::Recovery;
use crate::records::{
    LineSetting, Pair, Plane, Record, RecoveredPoint, RecoverySetting, Setting, Solution, Solved,
};
use crate::rng::Rng;
use crate::task::Row;

/// The SHA-256 of the static library that was linked.
pub const LIBRARY_SUM: &str = env!("COMPARE_LIBRARY_SUM");

/// The symbols that the library has for its callers, with a comma between them.
const LIBRARY_SYMBOLS: &str = env!("COMPARE_LIBRARY_SYMBOLS");

/// The symbols that were called so far.
static CALLED: Mutex<BTreeSet<&'static str>> = Mutex::new(BTreeSet::new());

/// How many symbols the library has, and which of them nothing called.
pub fn uncalled_symbols() -> (usize, Vec<&'static str>) {
    let called = CALLED.lock().expect("no thread fails while it notes calls");
    let all: Vec<&str> = LIBRARY_SYMBOLS.split(',').collect();
    let uncalled = all.iter().filter(|name| !called.contains(*name));
    (all.len(), uncalled.copied().collect())
}

/// A call of one entry, before it is made and after.
#[derive(Clone, Debug)]
pub enum Call {
    Roots {
        given: Vec<f64>,
        got: Vec<f64>,
    },
    Fuseds {
        given: Vec<[f64; 3]>,
        got: Vec<f64>,
    },
    Normalize {
        rows: Vec<f64>,
        refusal: u64,
    },
    Two {
        first: Plane,
        second: Plane,
        out: Pair,
    },
    /// The highest value comes as `out.x`, the lowest as `out.y`.
    Line {
        pairs: Vec<f64>,
        setting: LineSetting,
        out: Pair,
    },
    Solve {
        rows: Vec<f64>,
        setting: Setting,
        out: Solved,
    },
    /// The solve over row records: the same memory, lent as whole rows.
    Rows {
        rows: Vec<f64>,
        setting: Setting,
        out: Solved,
    },
    /// The source's own entry, which looks at no allowance.
    Own {
        rows: Vec<f64>,
        setting: Setting,
        out: Solution,
    },
    Recover {
        rows: Vec<f64>,
        setting: RecoverySetting,
        out: RecoveredPoint,
    },
    /// A reader is started, fed and told the end: calls of its three entries, one after the other.
    Link {
        session: Session,
        left: Left,
    },
}

fn plane(row: Row) -> Plane {
    Plane {
        a: row.0,
        b: row.1,
        c: row.2,
    }
}

impl Call {
    pub fn roots(given: Vec<f64>) -> Call {
        Call::Roots {
            given,
            got: Vec::new(),
        }
    }

    pub fn fuseds(given: Vec<[f64; 3]>) -> Call {
        Call::Fuseds {
            given,
            got: Vec::new(),
        }
    }

    pub fn normalize(rows: Vec<f64>) -> Call {
        Call::Normalize {
            rows,
            refusal: u64::MAX,
        }
    }

    pub fn two(first: Row, second: Row) -> Call {
        Call::Two {
            first: plane(first),
            second: plane(second),
            out: Pair::uncalled(),
        }
    }

    pub fn line(pairs: Vec<f64>, setting: LineSetting) -> Call {
        Call::Line {
            pairs,
            setting,
            out: Pair::uncalled(),
        }
    }

    pub fn solve(rows: Vec<f64>, setting: Setting) -> Call {
        Call::Solve {
            rows,
            setting,
            out: Solved::uncalled(),
        }
    }

    pub fn rows(rows: Vec<f64>, setting: Setting) -> Call {
        Call::Rows {
            rows,
            setting,
            out: Solved::uncalled(),
        }
    }

    pub fn own(rows: Vec<f64>, setting: Setting) -> Call {
        Call::Own {
            rows,
            setting,
            out: Solution::uncalled(),
        }
    }

    pub fn recover(rows: Vec<f64>, given: &Recovery) -> Call {
        Call::Recover {
            rows,
            setting: RecoverySetting::of(given),
            out: RecoveredPoint::uncalled(),
        }
    }

    pub fn link(session: Session) -> Call {
        Call::Link {
            session,
            left: Left::default(),
        }
    }

    /// The library's symbols that the call is made to.
    fn symbols(&self) -> &'static [&'static str] {
        match self {
            Call::Roots { .. } => &["ravelsickle_root"],
            Call::Fuseds { .. } => &["ravelsickle_fused"],
            Call::Normalize { .. } => &["ravelsickle_normalize"],
            Call::Two { .. } => &["ravelsickle_solve_2x2"],
            Call::Line { .. } => &["ravelsickle_lp_1d"],
            Call::Solve { .. } => &["ravelsickle_solve"],
            Call::Rows { .. } => &["ravelsickle_solve_rows"],
            Call::Own { .. } => &["ravelsickle_lp_2d_incre_max_y"],
            Call::Recover { .. } => &["ravelsickle_recover_2d_prefix"],
            Call::Link { .. } => &[
                "ravelsickle_reader_start",
                "ravelsickle_reader_feed",
                "ravelsickle_reader_end",
            ],
        }
    }
}

/// The kernel as one thread uses it.
pub struct Kernel {
    back: back::Back,
    /// Where answers are to be spoilt, to see that the comparison finds it.
    spoil: Option<Spoiler>,
}

impl Kernel {
    pub fn new() -> Result<Kernel, String> {
        Ok(Kernel {
            back: back::Back::new()?,
            spoil: None,
        })
    }

    /// A kernel which changes this bit in one word of what one call of each batch leaves.
    pub fn spoilt(bit: u64, rng: Rng) -> Result<Kernel, String> {
        Ok(Kernel {
            back: back::Back::new()?,
            spoil: Some(Spoiler { bit, rng }),
        })
    }

    /// Makes the calls in order.
    pub fn make(&mut self, calls: &mut [Call]) -> Result<(), String> {
        self.back.make(calls)?;
        CALLED
            .lock()
            .expect("no thread fails while it notes calls")
            .extend(calls.iter().flat_map(Call::symbols));
        if let Some(spoiler) = &mut self.spoil
            && !calls.is_empty()
        {
            let at = spoiler.rng.size(0, calls.len() - 1);
            spoiler.call(&mut calls[at]);
        }
        Ok(())
    }
}

/// Changes what calls left.
struct Spoiler {
    bit: u64,
    rng: Rng,
}

impl Spoiler {
    fn one_of(&mut self, numbers: &mut [f64]) {
        if !numbers.is_empty() {
            let at = self.rng.size(0, numbers.len() - 1);
            numbers[at] = f64::from_bits(numbers[at].to_bits() ^ self.bit);
        }
    }

    /// Changes the bit in one field, of which it must be a part: a flag has the lowest alone.
    fn record<R: Record>(&mut self, record: &mut R) {
        let before = record.words();
        while record.words() == before {
            let mut words = before.clone();
            words[self.rng.size(0, R::WORDS - 1)] ^= self.bit;
            *record = R::of_words(&words);
        }
    }

    /// Changes one float of the rows, or one field of the answer.
    fn either<R: Record>(&mut self, rows: &mut [f64], record: &mut R) {
        if rows.is_empty() || !self.rng.once_in(4) {
            self.record(record);
        } else {
            self.one_of(rows);
        }
    }

    fn call(&mut self, call: &mut Call) {
        match call {
            Call::Roots { got, .. } | Call::Fuseds { got, .. } => self.one_of(got),
            Call::Normalize { rows, refusal } => {
                if rows.is_empty() || self.rng.once_in(4) {
                    *refusal ^= self.bit;
                } else {
                    self.one_of(rows);
                }
            }
            Call::Two { out, .. } | Call::Line { out, .. } => self.record(out),
            Call::Solve { rows, out, .. } | Call::Rows { rows, out, .. } => self.either(rows, out),
            Call::Own { rows, out, .. } => self.either(rows, out),
            Call::Recover { out, .. } => self.record(out),
            Call::Link { left, .. } => self.left(left),
        }
    }

    /// Changes what an offer left, or what is held; of a byte the lowest bit.
    fn left(&mut self, left: &mut Left) {
        match self.rng.below(4) {
            0 => {
                let at = self.rng.size(0, left.head.len() - 1);
                left.head[at] ^= 1;
            }
            1 => left.changed ^= self.bit,
            part => {
                let at = self.rng.size(0, left.steps.len() - 1);
                let step = &mut left.steps[at];
                if part == 2 {
                    self.record(&mut step.fed);
                } else {
                    let at = self.rng.size(0, step.text.len() - 1);
                    step.text[at] ^= 1;
                }
            }
        }
    }
}
