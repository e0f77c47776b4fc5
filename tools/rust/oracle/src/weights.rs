//! Document 02's weights from a broadening shape, which phonors is handed ready made: plain f64 operations, each rounded once, left to
//! right. The exponential is document 01's.

use crate::sets::{Shape, WeightsSet};
use crate::standins::exp;

/// The f64 nearest 1/π.
const INVERSE_PI: u64 = 0x3FD4_5F30_6DC9_C883;
/// The f64 nearest 1/√(2π).
const GAUSSIAN_SCALE: u64 = 0x3FD9_8845_33D4_3651;

/// The shape's value at distance d.
pub fn shape_at(shape: Shape, d: f64) -> f64 {
    match shape {
        Shape::Gaussian(w) => {
            if d.abs() > 8.0 * w {
                return 0.0;
            }
            let t = d / w;
            1.0 / exp(t * t / 2.0) * (f64::from_bits(GAUSSIAN_SCALE) / w)
        }
        Shape::Lorentzian(w) => w / (d * d + w * w) * f64::from_bits(INVERSE_PI),
        Shape::Box(w) => {
            if d.abs() <= w {
                1.0 / (2.0 * w)
            } else {
                0.0
            }
        }
    }
}

/// Both weights and the flag of a slot whose three bands have these frequencies.
pub fn slot(shape: Shape, f0: f64, f1: f64, f2: f64) -> (f64, f64, u8) {
    let one = shape_at(shape, (f0 - f1) - f2);
    let two = shape_at(shape, (f0 + f1) - f2);
    let three = shape_at(shape, (f0 - f1) + f2);
    let flagged = one == 0.0 && two == 0.0 && three == 0.0;
    (one, two - three, u8::from(flagged))
}

/// Writes every slot of an accepted set.
pub fn work(set: &WeightsSet, first: &mut [f64], second: &mut [f64], flags: &mut [u8]) {
    let bands = 3 * set.measures.atoms as usize;
    let leg = |point: i64| &set.frequencies[point as usize * bands..][..bands];
    let [leg0, leg1, leg2] = set.triplet.map(leg);
    for (b, &band) in set.bands.iter().enumerate() {
        let f0 = leg0[band as usize];
        for (j, &f1) in leg1.iter().enumerate() {
            for (k, &f2) in leg2.iter().enumerate() {
                let place = (b * bands + j) * bands + k;
                (first[place], second[place], flags[place]) = slot(set.shape, f0, f1, f2);
            }
        }
    }
}
