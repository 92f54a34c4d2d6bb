//! Two rules for the smaller and the larger of two numbers, by which two copies of the original are built. Rust's own `min` and
//! `max` may give either of two equal numbers, so that the sign of a zero depends on the build; and to some processors a
//! signalling NaN is none. Here every NaN is one.

use std::cmp::Ordering;

/// minimumNumber and maximumNumber of IEEE 754-2019: -0 is below +0, and a number beats a NaN.
pub(crate) trait Ordered {
    fn lesser(self, other: Self) -> Self;
    fn greater(self, other: Self) -> Self;
}

impl Ordered for f64 {
    fn lesser(self, other: f64) -> f64 {
        outer(self, other, Ordering::Less)
    }

    fn greater(self, other: f64) -> f64 {
        outer(self, other, Ordering::Greater)
    }
}

/// Of two numbers the one that is less, or greater, in IEEE's total order, which has -0 before +0.
fn outer(left: f64, right: f64, wanted: Ordering) -> f64 {
    if left.is_nan() {
        right
    } else if right.is_nan() || left.total_cmp(&right) == wanted {
        left
    } else {
        right
    }
}

/// The rule before that: of two equal numbers the left one, and a number beats a NaN.
pub(crate) trait Left {
    fn lesser(self, other: Self) -> Self;
    fn greater(self, other: Self) -> Self;
}

impl Left for f64 {
    fn lesser(self, other: f64) -> f64 {
        if self.is_nan() || other < self {
            other
        } else {
            self
        }
    }

    fn greater(self, other: f64) -> f64 {
        if self.is_nan() || other > self {
            other
        } else {
            self
        }
    }
}
