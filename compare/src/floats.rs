//! Root and fused multiply-add against the machine's own, bit by bit.

use crate::kernel::{Call, Kernel};
use crate::report::{Difference, Verdict, differs_on_line, hex};
use crate::rng::Rng;
use crate::same::settled_bits;
use crate::values;

fn judge_root(x: f64, got: f64) -> Verdict {
    let wanted = settled_bits(x.sqrt());
    if got.to_bits() == wanted {
        return Ok(());
    }
    Err(differs_on_line(
        format!("root gives {}, the machine {wanted:016X}", hex(got)),
        format!("root {}", hex(x)),
    ))
}

fn judge_fused([x, y, z]: [f64; 3], got: f64) -> Verdict {
    let wanted = settled_bits(x.mul_add(y, z));
    if got.to_bits() == wanted {
        return Ok(());
    }
    Err(differs_on_line(
        format!("fused gives {}, the machine {wanted:016X}", hex(got)),
        format!("fused {} {} {}", hex(x), hex(y), hex(z)),
    ))
}

/// Makes one call, whose answers must be as many as its cases.
fn make_one(kernel: &mut Kernel, call: Call) -> Result<Call, Box<Difference>> {
    let mut calls = [call];
    kernel
        .make(&mut calls)
        .map_err(|what| differs_on_line(what, "(a batch)".to_string()))?;
    let [call] = calls;
    Ok(call)
}

/// The number of cases in a call.
const AT_ONCE: u64 = 20_000;

/// A float with a chosen exponent and any digits.
fn with_exponent(rng: &mut Rng, exponent: i64) -> f64 {
    let biased = (exponent + 1023).clamp(0, 2046) as u64;
    let digits = match rng.below(4) {
        // Few digits, so that products are exact and ties happen.
        0 => (rng.bits() >> 12) & !((1 << rng.below(52)) - 1),
        // Digits that are nearly all ones or nearly all zeros.
        1 => (rng.below(64).wrapping_sub(32)) & ((1 << 52) - 1),
        _ => rng.bits() >> 12,
    };
    f64::from_bits((rng.bits() & (1 << 63)) | (biased << 52) | digits)
}

/// Squares of floats of half the digits, of middles between two floats, and their neighbours.
fn near_square(rng: &mut Rng) -> f64 {
    let r = match rng.below(3) {
        0 => (rng.bits() >> rng.pick(&[37, 38, 40, 50])) as f64,
        1 => rng.between(1.0, 2.0) * 2f64.powi(rng.whole(-500, 500) as i32),
        _ => (rng.bits() >> 38) as f64 + 0.5,
    };
    values::neighbour(rng, r * r)
}

/// A float at most 2^28 floats away from 1, or a few away from where the rule near 1 ends.
fn near_one(rng: &mut Rng) -> f64 {
    let away = match rng.below(3) {
        0 => rng.whole(-(1 << 28), 1 << 28),
        1 => rng.whole(-1000, 1000),
        _ => rng.pick(&[-(1 << 26), 1 << 26]) + rng.whole(-1000, 1000),
    };
    f64::from_bits(1f64.to_bits().wrapping_add(away as u64))
}

fn root_case(rng: &mut Rng) -> f64 {
    match rng.below(9) {
        0 => values::any_bits(rng),
        1 => values::subnormal(rng).abs(),
        2 | 3 => near_square(rng),
        4 => {
            let exponent = rng.whole(-1023, 1023);
            with_exponent(rng, exponent).abs()
        }
        5 => rng.between(0.0, 4.0),
        6 => values::special(rng),
        7 => near_one(rng),
        // An even or odd power of two and its neighbours.
        _ => {
            let power = 2f64.powi(rng.whole(-1021, 1023) as i32);
            values::neighbour(rng, power)
        }
    }
}

pub fn roots(kernel: &mut Kernel, rng: &mut Rng, cases: u64) -> Verdict {
    let mut left = cases;
    while left > 0 {
        let now = left.min(AT_ONCE);
        let given = (0..now).map(|_| root_case(rng)).collect();
        if let Call::Roots { given, got } = make_one(kernel, Call::roots(given))? {
            given
                .iter()
                .zip(&got)
                .try_for_each(|(&x, &r)| judge_root(x, r))?;
        }
        left -= now;
    }
    Ok(())
}

/// An addend that cancels the product up to its last digits.
fn cancelling(rng: &mut Rng, x: f64, y: f64) -> f64 {
    values::neighbour(rng, -(x * y))
}

/// An addend half a unit in the last place of the product, or of which the product is that.
fn tying(rng: &mut Rng, x: f64, y: f64) -> f64 {
    let product = x * y;
    let shift = rng.pick(&[-54, -53, -52, 52, 53, 54, 105, -105, 106, -106]);
    let power = f64::from_bits(product.to_bits() & 0x7FF0_0000_0000_0000);
    let z = power * 2f64.powi(shift) * rng.sign();
    if rng.once_in(2) {
        z
    } else {
        values::neighbour(rng, z)
    }
}

fn fused_case(rng: &mut Rng) -> (f64, f64, f64) {
    match rng.below(8) {
        0 => (
            values::any_bits(rng),
            values::any_bits(rng),
            values::any_bits(rng),
        ),
        1 => (
            values::special(rng),
            values::special(rng),
            values::special(rng),
        ),
        2 | 3 => {
            let exponents = (rng.whole(-40, 40), rng.whole(-40, 40));
            let (x, y) = (
                with_exponent(rng, exponents.0),
                with_exponent(rng, exponents.1),
            );
            let z = if rng.once_in(2) {
                cancelling(rng, x, y)
            } else {
                tying(rng, x, y)
            };
            (x, y, z)
        }
        // Results at the lower end, subnormal and just above.
        4 => {
            let e = rng.whole(-600, 0);
            let f = rng.whole(-1080, -1000) - e;
            let (x, y) = (with_exponent(rng, e), with_exponent(rng, f));
            let z = match rng.below(3) {
                0 => values::subnormal(rng),
                1 => cancelling(rng, x, y),
                _ => {
                    let g = rng.whole(-1023, -990);
                    with_exponent(rng, g)
                }
            };
            (x, y, z)
        }
        // Results at the upper end, with and without overflow.
        5 => {
            let e = rng.whole(0, 1023);
            let f = rng.whole(1018, 1025) - e;
            let (x, y) = (with_exponent(rng, e), with_exponent(rng, f));
            let z = match rng.below(3) {
                0 => f64::MAX * rng.sign(),
                1 => {
                    let g = rng.whole(965, 1023);
                    with_exponent(rng, g)
                }
                _ => cancelling(rng, x, y),
            };
            (x, y, z)
        }
        // An addend at every distance from the product.
        6 => {
            let (e, f) = (rng.whole(-200, 200), rng.whole(-200, 200));
            let g = e + f + rng.whole(-120, 120);
            (
                with_exponent(rng, e),
                with_exponent(rng, f),
                with_exponent(rng, g),
            )
        }
        // Whole numbers of few digits: the sum is exact or a tie.
        _ => {
            let whole = |rng: &mut Rng| rng.whole(-(1 << 30), 1 << 30) as f64;
            (
                whole(rng),
                whole(rng),
                whole(rng) * 2f64.powi(rng.whole(-10, 60) as i32),
            )
        }
    }
}

pub fn fuseds(kernel: &mut Kernel, rng: &mut Rng, cases: u64) -> Verdict {
    let mut left = cases;
    while left > 0 {
        let now = left.min(AT_ONCE);
        let given = (0..now)
            .map(|_| {
                let (x, y, z) = fused_case(rng);
                [x, y, z]
            })
            .collect();
        if let Call::Fuseds { given, got } = make_one(kernel, Call::fuseds(given))? {
            given
                .iter()
                .zip(&got)
                .try_for_each(|(&t, &r)| judge_fused(t, r))?;
        }
        left -= now;
    }
    Ok(())
}
