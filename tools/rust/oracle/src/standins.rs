//! Document 01's exponential, sine and cosine: plain f64 operations, each rounded once, left to right.
//! The root needs no stand-in, `f64::sqrt` is the nearest.

/// Greatest magnitude of an argument of sine and cosine.
pub const PHASE_LIMIT: f64 = 1_048_576.0;

const EXP_LIMIT: f64 = 709.0;
const EXP_SCALE: u64 = 0x3FF7_1547_652B_82FE;
const EXP_HIGH: u64 = 0x3FE6_2E42_FEE0_0000;
const EXP_LOW: u64 = 0x3DEA_39EF_3579_3C76;
/// n, for n = 18 down to 1.
const EXP_DIVISORS: [f64; 18] = [
    18.0, 17.0, 16.0, 15.0, 14.0, 13.0, 12.0, 11.0, 10.0, 9.0, 8.0, 7.0, 6.0, 5.0, 4.0, 3.0, 2.0,
    1.0,
];

const TURN_SCALE: u64 = 0x3FE4_5F30_6DC9_C883;
const TURN_HIGH: u64 = 0x3FF9_21FB_5440_0000;
const TURN_MIDDLE: u64 = 0x3DD0_B461_1A60_0000;
const TURN_LOW: u64 = 0x3BA3_198A_2E03_7073;
/// 2n·(2n + 1), for n = 9 down to 1.
const SINE_DIVISORS: [f64; 9] = [342.0, 272.0, 210.0, 156.0, 110.0, 72.0, 42.0, 20.0, 6.0];
/// (2n − 1)·2n, for n = 9 down to 1.
const COSINE_DIVISORS: [f64; 9] = [306.0, 240.0, 182.0, 132.0, 90.0, 56.0, 30.0, 12.0, 2.0];

/// Exponential of an argument of at least 0; NaN outside.
pub fn exp(x: f64) -> f64 {
    if x.is_nan() || x < 0.0 {
        return f64::NAN;
    }
    if x > EXP_LIMIT {
        return f64::INFINITY;
    }
    let k = (x * f64::from_bits(EXP_SCALE)).trunc();
    let r = (x - k * f64::from_bits(EXP_HIGH)) - k * f64::from_bits(EXP_LOW);
    let mut p = 1.0;
    for n in EXP_DIVISORS {
        p = 1.0 + p * (r / n);
    }
    p * power_of_two(k as u64)
}

/// 2^k for k up to 1,023, exact.
fn power_of_two(k: u64) -> f64 {
    f64::from_bits((1023 + k) << 52)
}

/// True if sine and cosine are defined: neither NaN nor beyond the limit.
pub fn within_phase_limit(x: f64) -> bool {
    x.abs() <= PHASE_LIMIT
}

/// (sine, cosine) of an argument within the limit; NaN outside.
pub fn sin_cos(x: f64) -> (f64, f64) {
    #[cfg(test)]
    record::note(x);
    if !within_phase_limit(x) {
        return (f64::NAN, f64::NAN);
    }
    let k = (x * f64::from_bits(TURN_SCALE) + 0.5).floor();
    let r = ((x - k * f64::from_bits(TURN_HIGH)) - k * f64::from_bits(TURN_MIDDLE))
        - k * f64::from_bits(TURN_LOW);
    let z = r * r;
    let s = r * series(z, SINE_DIVISORS);
    let c = series(z, COSINE_DIVISORS);
    match (k as i64).rem_euclid(4) {
        0 => (s, c),
        1 => (c, -s),
        2 => (-s, -c),
        _ => (-c, s),
    }
}

/// From p = 1: p = 1 − p·(z/d) for each divisor in turn.
fn series(z: f64, divisors: [f64; 9]) -> f64 {
    let mut p = 1.0;
    for d in divisors {
        p = 1.0 - p * (z / d);
    }
    p
}

/// Remembers whether the source asked for a sine and cosine outside the limit, to test refusal 9 against it.
#[cfg(test)]
pub mod record {
    use std::cell::Cell;

    thread_local! {
        static BEYOND: Cell<bool> = const { Cell::new(false) };
    }

    pub fn note(x: f64) {
        if !super::within_phase_limit(x) {
            BEYOND.with(|beyond| beyond.set(true));
        }
    }

    /// Reads the mark and clears it.
    pub fn take_beyond() -> bool {
        BEYOND.with(|beyond| beyond.replace(false))
    }
}

#[cfg(test)]
mod tests {
    use super::*;

    #[test]
    fn divisors_are_the_stated_ones() {
        for (place, n) in (1..=9u32).rev().enumerate() {
            assert_eq!(SINE_DIVISORS[place], f64::from(2 * n * (2 * n + 1)));
            assert_eq!(COSINE_DIVISORS[place], f64::from((2 * n - 1) * 2 * n));
        }
        for (place, n) in (1..=18u32).rev().enumerate() {
            assert_eq!(EXP_DIVISORS[place], f64::from(n));
        }
    }

    /// Bits from a second writing of the stated series, in Python's floats.
    #[test]
    fn exp_has_the_bits_of_its_series() {
        let values: [(u64, u64); 7] = [
            (0x3fe0000000000000, 0x3ffa61298e1e069c),
            (0x3fe62e42fefa39ef, 0x4000000000000000),
            (0x3ff0000000000000, 0x4005bf0a8b14576a),
            (0x4024800000000000, 0x40db9ea2aed2a0f1),
            (0x40562ccccccccccd, 0x47ef4705bbffae5b),
            (0x4085e0cccccccccd, 0x7f1058614179b2a5),
            (0x4086280000000000, 0x7fdd422d2be5dc9b),
        ];
        for (x, answer) in values {
            assert_eq!(exp(f64::from_bits(x)).to_bits(), answer, "{x:016x}");
        }
    }

    /// Bits from a second writing of the stated series: all four quarters, odd multiples of π/4, both limits.
    #[test]
    fn sine_and_cosine_have_the_bits_of_their_series() {
        let values: [(u64, u64, u64); 9] = [
            (0x3fe0000000000000, 0x3fdeaee8744b05f0, 0x3fec1528065b7d50),
            (0x3fe921fb54442d18, 0x3fe6a09e667f3bcc, 0x3fe6a09e667f3bcd),
            (0xc002d97c7f3321d2, 0xbfe6a09e667f3bce, 0xbfe6a09e667f3bcc),
            (0x4000000000000000, 0x3fed18f6ead1b446, 0xbfdaa22657537205),
            (0xc000000000000000, 0xbfed18f6ead1b446, 0xbfdaa22657537205),
            (0x400c000000000000, 0xbfd6733b7eba621f, 0xbfedf77403c11a5f),
            (0x408f40cccccccccd, 0x3fec1fe3d1572579, 0x3fde877c03f65b77),
            (0xc130000000000000, 0xbfd526ccb2fc8656, 0x3fee33ada92fe2ae),
            (0x4130000000000000, 0x3fd526ccb2fc8656, 0x3fee33ada92fe2ae),
        ];
        for (x, sine, cosine) in values {
            let (s, c) = sin_cos(f64::from_bits(x));
            assert_eq!((s.to_bits(), c.to_bits()), (sine, cosine), "{x:016x}");
        }
    }

    #[test]
    fn exp_is_close() {
        for step in 0..70_900 {
            let x = f64::from(step) * 0.01;
            assert!((exp(x) / x.exp() - 1.0).abs() < 1e-15, "{x}");
        }
    }

    #[test]
    fn exp_at_its_edges() {
        assert_eq!(exp(0.0), 1.0);
        assert_eq!(exp(-0.0), 1.0);
        assert!(exp(709.0).is_finite());
        assert_eq!(exp(709.0f64.next_up()), f64::INFINITY);
        assert_eq!(exp(f64::INFINITY), f64::INFINITY);
        assert!(exp(-f64::MIN_POSITIVE).is_nan());
        assert!(exp(f64::NAN).is_nan());
    }

    #[test]
    fn sine_and_cosine_are_close() {
        for step in -100_000..=100_000 {
            for scale in [0.0001, 0.37, 10.48576] {
                let x = f64::from(step) * scale;
                let (s, c) = sin_cos(x);
                assert!(
                    (s - x.sin()).abs() < 4e-16 && (c - x.cos()).abs() < 4e-16,
                    "{x}"
                );
            }
        }
    }

    #[test]
    fn sine_and_cosine_at_their_edges() {
        assert_eq!(sin_cos(0.0), (0.0, 1.0));
        for x in [PHASE_LIMIT, -PHASE_LIMIT] {
            assert!(sin_cos(x).0.is_finite() && sin_cos(x).1.is_finite());
        }
        for x in [
            PHASE_LIMIT.next_up(),
            -PHASE_LIMIT.next_up(),
            f64::INFINITY,
            f64::NAN,
        ] {
            assert!(sin_cos(x).0.is_nan() && sin_cos(x).1.is_nan());
        }
    }
}
