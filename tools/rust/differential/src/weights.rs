//! The shape of a set for the weights, with frequencies to suit it: ordinary widths, ones whose values overflow or underflow, and ones
//! whose edge is just the distance of a slot.

use crate::call::{Call, Kind};
use crate::numbers::{self, Style};
use crate::random::Random;
use crate::tables::style_of;
use oracle::sets::Shape;

/// Puts a shape into the call; where what its kind asks for cannot be made, the call is counted as usual.
pub fn make(random: &mut Random, call: &mut Call) {
    match call.kind {
        Kind::Huge if random.chance(2) => make_greatest(random, call),
        Kind::Tiny if random.chance(2) => make_least(random, call),
        _ => (),
    }
    let any = random.pick(&[Style::Usual, Style::Coarse, Style::Huge, Style::Tiny]);
    let style = if random.chance(5) {
        any
    } else {
        style_of(call.kind)
    };
    let shape = random.pick(&[Shape::Gaussian, Shape::Lorentzian, Shape::Box]);
    call.shape = shape(numbers::width(random, style));
    let made = match call.kind {
        Kind::Idle => make_idle(random, call),
        Kind::Touching => touch(random, call),
        _ => true,
    };
    if !made {
        call.kind = Kind::Usual;
    }
}

/// Frequencies of either sign whose sums overflow, all or half of them.
fn make_greatest(random: &mut Random, call: &mut Call) {
    let one_in = random.pick(&[1, 2]);
    for x in &mut call.set.strengths.frequencies {
        if random.chance(one_in) {
            let greatest = random.pick(&[f64::MAX, f64::MAX / 2.0]);
            let size = numbers::scaled(random, 1020, 1023);
            *x = random.pick(&[1.0, -1.0]) * random.pick(&[greatest, size]);
        }
    }
}

/// Frequencies that are subnormal or nearly so, or whose squares are.
fn make_least(random: &mut Random, call: &mut Call) {
    let squares = random.chance(2);
    for x in &mut call.set.strengths.frequencies {
        *x = if squares {
            numbers::scaled(random, -560, -500)
        } else {
            numbers::least(random)
        };
    }
}

/// The distances of a slot whose bands have these frequencies.
fn distances(f0: f64, f1: f64, f2: f64) -> [f64; 3] {
    [(f0 - f1) - f2, (f0 + f1) - f2, (f0 - f1) + f2]
}

/// The frequencies of the three grid points.
fn legs(call: &Call) -> [&[f64]; 3] {
    let t = &call.set.strengths;
    let bands = 3 * t.measures.atoms as usize;
    call.set
        .triplet
        .map(|point| &t.frequencies[point as usize * bands..][..bands])
}

/// Leaves every slot flagged in one of several ways; true if so.
fn make_idle(random: &mut Random, call: &mut Call) -> bool {
    match random.below(4) {
        // Twice the width, or its square, is infinite.
        0 => call.shape = Shape::Box(random.pick(&[f64::MAX, (f64::MAX / 2.0).next_up()])),
        1 => call.shape = Shape::Lorentzian(random.pick(&[f64::MAX, 1e160])),
        // No slot is near enough.
        way => {
            let [leg0, leg1, leg2] = legs(call);
            let mut nearest = f64::MAX;
            for &band in &call.set.strengths.bands {
                for &f1 in leg1 {
                    for &f2 in leg2 {
                        for d in distances(leg0[band as usize], f1, f2) {
                            nearest = nearest.min(d.abs());
                        }
                    }
                }
            }
            let narrow = nearest / 16.0;
            if narrow == 0.0 {
                return false;
            }
            call.shape = match way {
                2 => Shape::Box(narrow),
                _ => Shape::Gaussian(narrow),
            };
        }
    }
    true
}

/// Puts the edge of a box or of a Gaussian at the distance of a slot, or one unit to either side; true if there is a slot for it.
fn touch(random: &mut Random, call: &mut Call) -> bool {
    let [leg0, leg1, leg2] = legs(call);
    let f0 = leg0[random.pick(&call.set.strengths.bands) as usize];
    let (f1, f2) = (random.pick(leg1), random.pick(leg2));
    let d = random.pick(&distances(f0, f1, f2)).abs();
    let (shape, times): (fn(f64) -> Shape, f64) = if random.chance(2) {
        (Shape::Box, 1.0)
    } else {
        (Shape::Gaussian, 8.0)
    };
    let width = d / times;
    if width == 0.0 || times * width != d || !d.is_finite() {
        return false;
    }
    let steps = random.pick(&[0, 0, 0, 1, -1]);
    let beside = f64::from_bits(width.to_bits().saturating_add_signed(steps));
    call.shape = shape(beside.clamp(f64::from_bits(1), f64::MAX));
    true
}
