//! The records that cross to the kernel and back, field by field as `bindings/c/ravelsickle.h` has them.

use crate::original::Recovery;
use crate::same::{Alike, THE_NAN};
use crate::task::Task;

/// A field of a record, as a word of 64 bits.
pub trait Word {
    fn word(self) -> u64;
    fn of(word: u64) -> Self;
}

impl Word for u64 {
    fn word(self) -> u64 {
        self
    }
    fn of(word: u64) -> u64 {
        word
    }
}

impl Word for usize {
    fn word(self) -> u64 {
        self as u64
    }
    fn of(word: u64) -> usize {
        word as usize
    }
}

impl Word for f64 {
    fn word(self) -> u64 {
        self.to_bits()
    }
    fn of(word: u64) -> f64 {
        f64::from_bits(word)
    }
}

impl Word for bool {
    fn word(self) -> u64 {
        u64::from(self)
    }
    fn of(word: u64) -> bool {
        word & 1 != 0
    }
}

/// A record as the words of its fields, in order.
pub trait Record: Sized {
    const WORDS: usize;
    fn words(&self) -> Vec<u64>;
    fn of_words(words: &[u64]) -> Self;

    /// What stands in a record before its call is made, which no entry answers.
    fn uncalled() -> Self {
        Self::of_words(&vec![0x7FFA_5A5A_1234_4321; Self::WORDS])
    }

    fn same_words(&self, other: &Self) -> bool {
        self.words() == other.words()
    }
}

macro_rules! record {
    ($(#[$meta:meta])* $name:ident { $($field:ident: $kind:ty,)* }) => {
        $(#[$meta])*
        #[repr(C)]
        #[derive(Clone, Copy, Debug)]
        pub struct $name {
            $(pub $field: $kind,)*
        }

        impl Record for $name {
            const WORDS: usize = [$(stringify!($field)),*].len();

            fn words(&self) -> Vec<u64> {
                vec![$(self.$field.word()),*]
            }

            fn of_words(words: &[u64]) -> $name {
                let mut words = words.iter();
                $name {
                    $($field: Word::of(*words.next().expect("a word for each field")),)*
                }
            }
        }
    };
}

record! {
    /// Three floats by value.
    Plane { a: f64, b: f64, c: f64, }
}

record! {
    /// `struct ravelsickle_task`: what a solve is given besides its rows.
    Setting {
        feasibility: f64,
        scale: f64,
        x0: f64,
        y0: f64,
        skip: usize,
        normalize: u64,
        allowance: u64,
    }
}

record! {
    /// `struct ravelsickle_answer`: what a solve answers.
    Solved {
        refusal: u64,
        kind: u64,
        x: f64,
        y: f64,
        count: u64,
        first: usize,
        second: usize,
        has_first: bool,
        has_second: bool,
    }
}

record! {
    /// `struct ravelsickle_solution`: what the source's own entry answers.
    Solution { refusal: u64, kind: u64, x: f64, y: f64, }
}

record! {
    /// `struct ravelsickle_crossing` with x and y, and `struct ravelsickle_bounds` with the highest value and the lowest.
    Pair { refusal: u64, x: f64, y: f64, }
}

record! {
    /// `struct ravelsickle_line_task`.
    LineSetting { feasibility: f64, scale: f64, autonan: bool, }
}

record! {
    /// `struct ravelsickle_recovery_task`.
    RecoverySetting {
        upto: usize,
        x0: f64,
        y0: f64,
        bound: f64,
        epsilon: f64,
        reduced: f64,
        first: usize,
        second: usize,
        has_first: bool,
        has_second: bool,
    }
}

record! {
    /// `struct ravelsickle_recovered`.
    RecoveredPoint {
        refusal: u64,
        x: f64,
        y: f64,
        first: usize,
        second: usize,
        has_first: bool,
        has_second: bool,
    }
}

record! {
    /// `struct ravelsickle_reader`.
    Reader { live: u64, lines: u64, left: u64, passed: usize, word: u64, }
}

record! {
    /// `struct ravelsickle_fed`, with the numbers of its reader.
    Fed {
        refusal: u64,
        taken: usize,
        printed: usize,
        live: u64,
        lines: u64,
        left: u64,
        passed: usize,
        word: u64,
    }
}

impl Fed {
    pub fn of(refusal: u64, taken: usize, printed: usize, reader: Reader) -> Fed {
        Fed {
            refusal,
            taken,
            printed,
            live: reader.live,
            lines: reader.lines,
            left: reader.left,
            passed: reader.passed,
            word: reader.word,
        }
    }

    pub fn reader(&self) -> Reader {
        Reader {
            live: self.live,
            lines: self.lines,
            left: self.left,
            passed: self.passed,
            word: self.word,
        }
    }
}

/// The kind of a record without an answer.
pub const UNANSWERED: u64 = 0;

/// The NaN that stands where there is no number.
fn no_number() -> f64 {
    f64::from_bits(THE_NAN)
}

/// A row's number where its flag is set. Without it the number must be 0.
fn row(has: bool, number: usize) -> Option<usize> {
    has.then_some(number)
}

impl Setting {
    pub fn of(task: &Task, allowance: u64) -> Setting {
        Setting {
            feasibility: task.feasibility,
            scale: task.scale,
            x0: task.x0,
            y0: task.y0,
            skip: task.skip,
            normalize: u64::from(task.normalize),
            allowance,
        }
    }
}

impl Solved {
    pub fn rows(&self) -> (Option<usize>, Option<usize>) {
        (
            row(self.has_first, self.first),
            row(self.has_second, self.second),
        )
    }

    /// Whether the number of a row that there is not is 0.
    pub fn absent_rows_are_zero(&self) -> bool {
        (self.has_first || self.first == 0) && (self.has_second || self.second == 0)
    }

    /// What a refusal answers, with the count that it has.
    pub fn refused(refusal: u64, count: u64) -> Solved {
        Solved {
            refusal,
            kind: UNANSWERED,
            x: no_number(),
            y: no_number(),
            count,
            first: 0,
            second: 0,
            has_first: false,
            has_second: false,
        }
    }
}

impl Solution {
    pub fn refused(refusal: u64) -> Solution {
        Solution {
            refusal,
            kind: UNANSWERED,
            x: no_number(),
            y: no_number(),
        }
    }
}

impl Pair {
    pub fn refused(refusal: u64) -> Pair {
        Pair {
            refusal,
            x: no_number(),
            y: no_number(),
        }
    }
}

impl RecoverySetting {
    /// The number of a row that there is not is one that no answer may show.
    pub fn of(given: &Recovery) -> RecoverySetting {
        const NONE: usize = 0x5A5A_0F0F;
        RecoverySetting {
            upto: given.upto,
            x0: given.x,
            y0: given.y,
            bound: given.bound,
            epsilon: given.epsilon,
            reduced: given.reduced,
            first: given.first.unwrap_or(NONE),
            second: given.second.unwrap_or(NONE),
            has_first: given.first.is_some(),
            has_second: given.second.is_some(),
        }
    }
}

impl RecoveredPoint {
    /// A point, or none where there is a refusal, and the collector afterwards.
    pub fn of(
        refusal: u64,
        at: Option<(f64, f64)>,
        rows: (Option<usize>, Option<usize>),
    ) -> RecoveredPoint {
        let (x, y) = at.unwrap_or((no_number(), no_number()));
        RecoveredPoint {
            refusal,
            x,
            y,
            first: rows.0.unwrap_or(0),
            second: rows.1.unwrap_or(0),
            has_first: rows.0.is_some(),
            has_second: rows.1.is_some(),
        }
    }

    /// The numbers of the point as closely as told; of a refusal, and of the rows, every bit.
    pub fn same(&self, wanted: &RecoveredPoint, alike: Alike) -> bool {
        let as_wanted = RecoveredPoint {
            x: wanted.x,
            y: wanted.y,
            ..*self
        };
        as_wanted.same_words(wanted) && alike(wanted.x, self.x) && alike(wanted.y, self.y)
    }
}
