//! When two floats count as the same.

use std::hint::black_box;

/// The bits of every NaN that an entry returns or computes into rows.
pub const THE_NAN: u64 = 0x7FF8_0000_0000_0000;

/// Equal up to NaN payload and the sign of zero.
pub fn same(left: f64, right: f64) -> bool {
    left == right || (left.is_nan() && right.is_nan())
}

/// Whether two slices have the same bits throughout.
pub fn same_bits(left: &[f64], right: &[f64]) -> bool {
    left.len() == right.len()
        && left
            .iter()
            .zip(right)
            .all(|(l, r)| l.to_bits() == r.to_bits())
}

/// Whether a number of the kernel's, the second, is what it must be where the first is wanted.
pub type Alike = fn(f64, f64) -> bool;

/// Equal up to the sign of zero, and a NaN is the kernel's own.
pub fn by_value(wanted: f64, got: f64) -> bool {
    same(wanted, got) && (!got.is_nan() || got.to_bits() == THE_NAN)
}

/// Equal in every bit, and a NaN is the kernel's own.
pub fn by_bits(wanted: f64, got: f64) -> bool {
    got.to_bits() == settled_bits(wanted)
}

/// The bits that the kernel must give where `x` is wanted. The compiler may take a NaN that it computes to have any payload,
/// and so leave the test out; it knows nothing of a number that comes out of the black box.
pub fn settled_bits(x: f64) -> u64 {
    let x = black_box(x);
    if x.is_nan() { THE_NAN } else { x.to_bits() }
}

/// Whether the second slice is what it must be where the first is wanted.
pub fn all_alike(alike: Alike, wanted: &[f64], got: &[f64]) -> bool {
    wanted.len() == got.len() && wanted.iter().zip(got).all(|(&w, &g)| alike(w, g))
}
