//! Floats that the families are made of.

use std::hint::black_box;
use std::sync::atomic::{AtomicBool, Ordering};

use crate::rng::Rng;

/// NaNs of either sign, quiet and signalling, with and without payload.
pub const NANS: [u64; 6] = [
    0x7FF8_0000_0000_0000,
    0xFFF8_0000_0000_0000,
    0x7FF8_0000_0000_1234,
    0xFFFF_FFFF_FFFF_FFFF,
    0x7FF0_0000_0000_0001,
    0xFFF4_0000_0000_0042,
];

/// Values at which something in the source changes, and the ends of the format.
const EDGES: [f64; 34] = [
    0.0,
    f64::INFINITY,
    f64::MAX,
    f64::MIN_POSITIVE,
    5e-324,
    2.225_073_858_507_201e-308,
    1.0,
    2.0,
    0.5,
    3.0,
    10.0,
    0.1,
    1e-9,
    1e-3,
    1e-13,
    1e-12,
    3.330_669_073_875_47e-16,
    1e6,
    5e5,
    1e9,
    5e8,
    1e12,
    1e15,
    1e18,
    1e21,
    1e24,
    5e23,
    1e27,
    1e200,
    1e-200,
    1e154,
    1e-154,
    1e-162,
    1e300,
];

pub fn nan(rng: &mut Rng) -> f64 {
    f64::from_bits(rng.pick(&NANS))
}

/// A zero of either sign.
pub fn zero(rng: &mut Rng) -> f64 {
    0.0 * rng.sign()
}

/// A value of either sign at which something changes.
pub fn edge(rng: &mut Rng) -> f64 {
    rng.pick(&EDGES) * rng.sign()
}

/// A value a few units in the last place from `x`.
pub fn neighbour(rng: &mut Rng, x: f64) -> f64 {
    if !x.is_finite() {
        return x;
    }
    f64::from_bits(x.to_bits().wrapping_add(rng.whole(-4, 4) as u64))
}

pub fn subnormal(rng: &mut Rng) -> f64 {
    let most = 52 - rng.below(52);
    f64::from_bits(rng.bits() >> (64 - most)) * rng.sign()
}

/// Any bits at all.
pub fn any_bits(rng: &mut Rng) -> f64 {
    f64::from_bits(rng.bits())
}

/// A number of everyday size.
pub fn ordinary(rng: &mut Rng) -> f64 {
    match rng.below(4) {
        0 => rng.between(-1.0, 1.0),
        1 => rng.between(-10.0, 10.0),
        2 => rng.between(-1.0, 1.0) * 10f64.powi(rng.whole(-4, 4) as i32),
        _ => rng.whole(-9, 9) as f64,
    }
}

/// A power of two or ten, up to 1e300 either way.
pub fn power(rng: &mut Rng) -> f64 {
    if rng.once_in(2) {
        let exponent = rng.whole(-996, 996) as i32;
        2f64.powi(exponent)
    } else {
        10f64.powi(rng.whole(-300, 300) as i32)
    }
}

/// A value of a kind that needs care.
pub fn special(rng: &mut Rng) -> f64 {
    match rng.below(8) {
        0 => nan(rng),
        1 => f64::INFINITY * rng.sign(),
        2 => zero(rng),
        3 => subnormal(rng),
        4 => edge(rng),
        5 => {
            let near = edge(rng);
            neighbour(rng, near)
        }
        6 => ordinary(rng) * power(rng),
        _ => any_bits(rng),
    }
}

/// Whether this processor's `max` of a signalling NaN and a number is NaN. Rust's `min` and `max` give the other operand when
/// one is NaN; the instructions of some processors do so for quiet NaNs only, and the original as built there does likewise.
pub fn signalling_passes_max() -> bool {
    black_box(f64::from_bits(0x7FF0_0000_0000_0001))
        .max(black_box(1.0))
        .is_nan()
}

static SIGNALLING_TOO: AtomicBool = AtomicBool::new(false);

/// Has the original given signalling NaNs as they are.
pub fn give_signalling_too() {
    SIGNALLING_TOO.store(true, Ordering::Relaxed);
}

/// A signalling NaN made quiet, where this processor would otherwise treat it unlike other NaNs.
pub fn as_original_takes_it(x: f64) -> f64 {
    if x.is_nan() && signalling_passes_max() && !SIGNALLING_TOO.load(Ordering::Relaxed) {
        f64::from_bits(x.to_bits() | 1 << 51)
    } else {
        x
    }
}
