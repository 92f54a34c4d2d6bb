//! What the kernel is held to: the answers of one copy of the original, with which another copy must agree, and how closely.

use std::convert::identity;
use std::panic::{AssertUnwindSafe, catch_unwind};
use std::sync::atomic::{AtomicU64, Ordering};

use crate::original::{COUNTED, Edition, LEFT, ORDERED, UNMODIFIED};
use crate::same::{Alike, by_bits, by_value, same};
use crate::values;

pub struct Standard {
    /// The copy whose answers the kernel must give, and the one that must agree with it. The second counts readings.
    copies: [&'static dyn Edition; 2],
    /// Whether the first counts them too.
    pub both_count: bool,
    /// A number as the copies are given it. The kernel is always given the number's own bits.
    pub given: fn(f64) -> f64,
    /// How closely the kernel's numbers are held to the first copy's.
    pub alike: Alike,
    other_signs: AtomicU64,
}

/// The unmodified original, beside its instrumented copy: numbers by value.
pub static ORIGINAL: Standard = Standard {
    copies: [UNMODIFIED, COUNTED],
    both_count: false,
    given: values::as_original_takes_it,
    alike: by_value,
    other_signs: AtomicU64::new(0),
};

/// The copy in which zeros have an order, beside the one with the rule before that: every bit of a number.
pub static SIGNS: Standard = Standard {
    copies: [ORDERED, LEFT],
    both_count: true,
    given: identity,
    alike: by_bits,
    other_signs: AtomicU64::new(0),
};

impl Standard {
    /// The copy whose answers the kernel must give.
    pub fn first(&self) -> &'static dyn Edition {
        self.copies[0]
    }

    /// What each of the two copies does.
    pub fn ask<T>(&self, question: impl Fn(&dyn Edition) -> T) -> Result<[T; 2], String> {
        let ask = |copy: &dyn Edition| {
            catch_unwind(AssertUnwindSafe(|| question(copy)))
                .map_err(|_| "the original panicked".to_string())
        };
        Ok([ask(self.copies[0])?, ask(self.copies[1])?])
    }

    /// Whether the numbers of the two copies are equal by value. Where they are, a zero of another sign is noted.
    pub fn agree(&self, first: &[f64], second: &[f64]) -> bool {
        let pairs = || first.iter().zip(second);
        let agree = first.len() == second.len() && pairs().all(|(&f, &s)| same(f, s));
        if agree && pairs().any(|(f, s)| *f == 0.0 && f.to_bits() != s.to_bits()) {
            self.other_signs.fetch_add(1, Ordering::Relaxed);
        }
        agree
    }

    /// In how many answers so far a zero of the second copy had the other sign.
    pub fn other_signs(&self) -> u64 {
        self.other_signs.load(Ordering::Relaxed)
    }
}
