//! Numbers of several styles: ordinary ones, ones that meet each other exactly, and ones that overflow, underflow or
//! become NaN inside.

use crate::random::Random;

#[derive(Clone, Copy, Debug, PartialEq)]
pub enum Style {
    /// Within a few powers of two of 1.
    Usual,
    /// From a handful of values, zeros of both signs among them.
    Coarse,
    /// Any exponent from −600 to 600.
    Wide,
    /// Usual, a few near the greatest.
    Huge,
    /// Usual, many subnormal or nearly so.
    Tiny,
}

/// (1 to 2)·2^exponent with random last bits; a subnormal keeps the leading ones.
pub fn scaled(random: &mut Random, low: i64, high: i64) -> f64 {
    let exponent = random.between(low, high);
    let significand = 1.0 + random.part();
    if exponent < -1022 {
        significand * power(-1022) * power(exponent + 1022)
    } else {
        significand * power(exponent)
    }
}

fn power(exponent: i64) -> f64 {
    2.0f64.powi(exponent as i32)
}

fn signed(random: &mut Random, x: f64) -> f64 {
    if random.chance(2) {
        -x
    } else {
        x
    }
}

fn subnormal(random: &mut Random) -> f64 {
    let shift = 12 + random.below(52);
    f64::from_bits((random.bits() >> shift).max(1))
}

/// A number of either sign that is subnormal, or becomes so when it is multiplied by a few others.
pub fn least(random: &mut Random) -> f64 {
    let x = match random.below(4) {
        0 => scaled(random, -1070, -900),
        1 => random.pick(&[5e-324, f64::MIN_POSITIVE, 0.0]),
        _ => subnormal(random),
    };
    signed(random, x)
}

/// A finite number of either sign.
pub fn number(random: &mut Random, style: Style) -> f64 {
    let x = match style {
        Style::Usual => random.unit(),
        Style::Coarse => random.pick(&[0.0, 0.25, 0.5, 1.0, 1.0, 2.0, 3.0]),
        Style::Wide if random.chance(12) => 0.0,
        Style::Wide => scaled(random, -600, 600),
        Style::Huge if random.chance(20) => scaled(random, 1000, 1022),
        Style::Huge if random.chance(3) => 0.0,
        Style::Huge => scaled(random, -3, 3),
        Style::Tiny => match random.below(4) {
            0 => subnormal(random),
            1 => scaled(random, -1070, -300),
            _ => random.unit(),
        },
    };
    signed(random, x)
}

/// A frequency: mostly above zero, some zero or below.
pub fn frequency(random: &mut Random, style: Style) -> f64 {
    if random.chance(14) {
        return random.pick(&[0.0, -0.0, -0.5, -3.0, -f64::MIN_POSITIVE]);
    }
    match style {
        Style::Usual => 0.05 + 20.0 * random.part(),
        Style::Coarse => random.pick(&[0.25, 0.5, 1.0, 1.0, 2.0, 4.0]),
        Style::Wide => scaled(random, -330, 330),
        Style::Huge if random.chance(3) => scaled(random, 300, 1022),
        Style::Huge => scaled(random, -3, 5),
        Style::Tiny => match random.below(4) {
            0 => subnormal(random),
            1 => scaled(random, -400, -300),
            _ => scaled(random, -3, 5),
        },
    }
}

/// A mass, above zero.
pub fn mass(random: &mut Random, style: Style) -> f64 {
    match style {
        Style::Usual => 1.0 + 200.0 * random.part(),
        Style::Coarse => random.pick(&[0.25, 1.0, 2.0, 4.0, 9.0]),
        Style::Wide => scaled(random, -600, 600),
        Style::Huge => random.pick(&[1.0, 28.0855, 1e300, f64::MAX]),
        Style::Tiny => random.pick(&[1.0, 12.011, 5e-324, f64::MIN_POSITIVE, 1e-200]),
    }
}

/// A width, above zero: some at the last number before twice it, eight times it, its square, or what is divided by them overflows
/// or underflows, or just beyond.
pub fn width(random: &mut Random, style: Style) -> f64 {
    match style {
        Style::Usual => random.pick(&[0.02, 0.2, 1.0, 4.0]) * (0.001 + random.part()),
        Style::Coarse => random.pick(&[0.03125, 0.0625, 0.125, 0.25, 0.5, 1.0, 2.0]),
        Style::Wide => scaled(random, -330, 330),
        Style::Huge => match random.below(4) {
            0 => random.pick(&[f64::MAX, f64::MAX / 2.0, power(1023)]),
            1 => random.pick(&[f64::MAX / 8.0, power(1021), f64::MAX / 4.0]),
            2 => scaled(random, 500, 1023),
            _ => scaled(random, -3, 5),
        },
        Style::Tiny => match random.below(5) {
            0 => random.pick(&[5e-324, 5e-324, 1e-323, f64::MIN_POSITIVE]),
            1 => f64::from_bits((1 << 49) + random.pick(&[0, 1])),
            2 => subnormal(random),
            3 => scaled(random, -560, -500),
            _ => scaled(random, -1070, -300),
        },
    }
}

/// A temperature without its sign bit; sometimes one that puts a frequency over it next to 709 or near zero.
pub fn temperature(random: &mut Random, frequencies: &[f64]) -> f64 {
    let some = frequencies[random.below(frequencies.len())].abs();
    match random.below(12) {
        0 | 1 => 0.0,
        2 => random.pick(&[5e-324, 1e-300, 1e-12]),
        3 => random.pick(&[1e12, 1e300, f64::MAX]),
        4 => random.pick(&[some / 709.0, some / 708.5, some / 709.5, some * 1e17]),
        5 => some / (f64::from(random.between(1, 1000) as i32) * std::f64::consts::LN_2),
        _ => 0.01 + 30.0 * random.part(),
    }
    .min(f64::MAX)
}

/// A cutoff that is not below zero; often exactly one of the frequencies.
pub fn cutoff(random: &mut Random, frequencies: &[f64]) -> f64 {
    let some = frequencies[random.below(frequencies.len())];
    match random.below(16) {
        0..=3 => 0.0,
        4 => -0.0,
        5..=8 if some >= 0.0 => some,
        9 if some > 0.0 => f64::from_bits(some.to_bits() - 1),
        10 if (0.0..f64::MAX).contains(&some) => f64::from_bits(some.abs().to_bits() + 1),
        11 => random.pick(&[5e-324, 1e-300]),
        12 if random.chance(6) => f64::MAX,
        _ => random.part(),
    }
}

/// What a buffer for writing may hold before the call: any bits.
pub fn any_bits(random: &mut Random) -> f64 {
    match random.below(8) {
        0 => f64::NAN,
        1 => signed(random, f64::INFINITY),
        2 => f64::from_bits(0x7FF0_0000_0000_0000 | (random.bits() >> 13) | 1),
        3 => f64::from_bits(0xFFF8_0000_0000_0000 | (random.bits() >> 13)),
        4 => random.pick(&[0.0, -0.0, -1.0, 5e-324]),
        5 => f64::from_bits(random.bits()),
        _ => random.unit(),
    }
}

pub fn any_table(random: &mut Random, count: usize) -> Vec<f64> {
    (0..count).map(|_| any_bits(random)).collect()
}

/// A number that is not finite: quiet, negative and signalling NaN, both infinities.
pub fn not_finite(random: &mut Random) -> f64 {
    f64::from_bits(random.pick(&[
        0x7FF8_0000_0000_0000,
        0xFFF8_0000_0000_0000,
        0x7FF0_0000_0000_0001,
        0xFFF0_0000_0000_0001,
        0x7FFF_FFFF_FFFF_FFFF,
        0x7FF0_0000_0000_0000,
        0xFFF0_0000_0000_0000,
    ]))
}
