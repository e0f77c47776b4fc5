//! The weights of a shape: the shapes by bits at and around their edges, slots, and the door's refusals.

use oracle::doors;
use oracle::sets::*;
use oracle::weights::{shape_at, slot};
use std::f64::consts::FRAC_1_PI;
use Shape::{Box, Gaussian, Lorentzian};

/// The least number above zero.
const LEAST: f64 = f64::from_bits(1);
const INFINITE: u64 = 0x7FF0_0000_0000_0000;

fn bits_at(shape: Shape, d: f64) -> u64 {
    shape_at(shape, d).to_bits()
}

/// Of width 1 at 0 the Lorentzian is 1/π and the Gaussian 1/√(2π), of whose decimal digits Rust takes the nearest f64.
#[test]
#[allow(clippy::excessive_precision)]
fn constants_are_the_nearest() {
    let scale = 0.398_942_280_401_432_677_939_946_059_934_f64;
    assert_eq!(bits_at(Lorentzian(1.0), 0.0), FRAC_1_PI.to_bits());
    assert_eq!(bits_at(Gaussian(1.0), 0.0), scale.to_bits());
}

/// Bits from a second writing of the stated formulas, in Python's floats.
#[test]
fn shapes_have_the_bits_of_their_formulas() {
    let values: [(Shape, f64, u64); 24] = [
        (Gaussian(0.25), 0.0, 0x3ff9884533d43651),
        (Gaussian(0.25), -0.0, 0x3ff9884533d43651),
        (Gaussian(0.25), 0.5, 0x3fcba4b436e83ad6),
        (Gaussian(0.25), -0.5, 0x3fcba4b436e83ad6),
        (Gaussian(0.3), 0.1, 0x3ff42089fc0aaf22),
        (Gaussian(0.3), -1.7, 0x3e830010f2ef02cb),
        // The machine's exponential gives another last bit.
        (Gaussian(0.3), 1.9, 0x3e2645a9a8c18c52),
        (Gaussian(1e-5), 0.0, 0x40e37ac74c1ad7b0),
        (Gaussian(1e-5), 7.9e-5, 0x3e133883e2cd9b92),
        (Gaussian(1e-300), 7e-300, 0x7bedfebabc78cae4),
        (Lorentzian(0.5), 0.0, 0x3fe45f306dc9c883),
        (Lorentzian(0.5), -1.5, 0x3fb04c26be3b06cf),
        (Lorentzian(0.5), 1.5, 0x3fb04c26be3b06cf),
        (Lorentzian(0.7), 0.3, 0x3fd896319efc5bed),
        (Lorentzian(0.7), -12.75, 0x3f5663a999c4e899),
        // A sum that is not rounded twice gives another last bit.
        (Lorentzian(0.9), 1.8, 0x3fb21bb945252402),
        (Lorentzian(1e-200), 1.0, 0x164f2ff041caa695),
        (Box(0.25), 0.0, 0x4000000000000000),
        (Box(0.25), -0.0, 0x4000000000000000),
        (Box(0.3), 0.1, 0x3ffaaaaaaaaaaaab),
        // 2·w is 2^-1022, 2^-1023, and the next above it.
        (Box(f64::MIN_POSITIVE / 2.0), 0.0, 0x7fd0000000000000),
        (Box(f64::MIN_POSITIVE / 4.0), 0.0, 0x7fe0000000000000),
        (Box(f64::from_bits(1 << 50 | 1)), 0.0, 0x7fdffffffffffff8),
        (Box(f64::MAX / 2.0), 0.0, 0x0004000000000000),
    ];
    for (shape, d, answer) in values {
        assert_eq!(bits_at(shape, d), answer, "{shape:?} at {d:?}");
    }
}

#[test]
fn the_box_holds_its_edge() {
    let inside = [
        (0.25, 0x4000000000000000),
        (0.3, 0x3ffaaaaaaaaaaaab),
        (LEAST, INFINITE),
        (f64::MAX / 2.0, 0x0004000000000000),
    ];
    for (w, answer) in inside {
        for sign in [1.0, -1.0] {
            assert_eq!(bits_at(Box(w), sign * w), answer, "{w:?}");
            assert_eq!(bits_at(Box(w), sign * w.next_down()), answer, "{w:?}");
            assert_eq!(bits_at(Box(w), sign * w.next_up()), 0, "{w:?}");
        }
    }
}

#[test]
fn the_gaussian_holds_its_edge() {
    // The value at 8 widths, and one unit nearer to 0.
    let inside = [
        (0.25, 0x3d16c0df3a094836, 0x3d16c0df3a094861),
        (0.3, 0x3d12f60f5b07bc2d, 0x3d12f60f5b07bc78),
        (LEAST, INFINITE, INFINITE),
    ];
    for (w, at, nearer) in inside {
        let edge = 8.0 * w;
        for sign in [1.0, -1.0] {
            assert_eq!(bits_at(Gaussian(w), sign * edge), at, "{w:?}");
            assert_eq!(
                bits_at(Gaussian(w), sign * edge.next_down()),
                nearer,
                "{w:?}"
            );
            assert_eq!(bits_at(Gaussian(w), sign * edge.next_up()), 0, "{w:?}");
        }
    }
}

#[test]
fn what_overflows_is_infinite_or_zero() {
    for d in [0.0, LEAST] {
        assert_eq!(bits_at(Gaussian(LEAST), d), INFINITE);
        assert_eq!(bits_at(Lorentzian(LEAST), d), INFINITE);
        assert_eq!(bits_at(Box(LEAST), d), INFINITE);
    }
    // w·w and 2·w are infinite; of the Gaussian 8·w is, so that nothing is cut.
    for d in [0.0, 1.0, f64::MAX, f64::INFINITY] {
        assert_eq!(bits_at(Lorentzian(1e160), d), 0);
        assert_eq!(bits_at(Box(f64::MAX), d), 0);
    }
    assert_eq!(bits_at(Gaussian(f64::MAX / 4.0), 0.0), 0x000662114cf50d94);
    assert_eq!(
        bits_at(Gaussian(f64::MAX / 4.0), f64::MAX),
        0x0000008c54c71606
    );
    for shape in [
        Gaussian(f64::MAX / 4.0),
        Gaussian(1.0),
        Lorentzian(1.0),
        Box(1.0),
    ] {
        for d in [f64::INFINITY, f64::NEG_INFINITY] {
            assert_eq!(bits_at(shape, d), 0, "{shape:?}");
        }
    }
}

#[test]
fn a_slot_is_flagged_if_all_three_shapes_are_zero() {
    // (f0 - f1) - f2, (f0 + f1) - f2 and (f0 - f1) + f2 in turn lie in the box.
    assert_eq!(slot(Box(0.25), 4.0, 1.0, 3.0), (2.0, 0.0, 0));
    assert_eq!(slot(Box(0.25), 1.0, 3.0, 4.0), (0.0, 2.0, 0));
    assert_eq!(slot(Box(0.25), 1.0, 4.0, 3.0), (0.0, -2.0, 0));
    assert_eq!(slot(Box(0.25), 1.0, 1.0, 1.0), (0.0, 0.0, 1));
    // The second weight is zero though its two shapes are not.
    assert_eq!(slot(Box(0.5), 0.25, 2.0, 2.0), (0.0, 0.0, 0));
    // Zero by overflow.
    assert_eq!(slot(Box(f64::MAX), 0.0, 0.0, 0.0), (0.0, 0.0, 1));
    assert_eq!(slot(Lorentzian(1e160), 4.0, 1.0, 3.0), (0.0, 0.0, 1));
    // Not zero but subnormal.
    let (first, second, flag) = slot(Gaussian(f64::MAX / 4.0), 0.0, 0.0, 0.0);
    assert!(first.is_subnormal() && second == 0.0 && flag == 0);
    // Sums that overflow lie nowhere near.
    assert_eq!(slot(Gaussian(1.0), f64::MAX, -f64::MAX, f64::MAX).2, 1);
    // Two infinite shapes: the second weight is kept as a NaN.
    let (first, second, flag) = slot(Box(LEAST), 0.0, 0.0, 0.0);
    assert!(first == f64::INFINITY && second.is_nan() && flag == 0);
}

/// Bits from the second writing; in another order the sums of these frequencies round to other distances.
#[test]
fn distances_are_summed_from_the_left() {
    let values: [(Shape, [f64; 3], u64, u64); 3] = [
        (
            Gaussian(0.5),
            [0.4, 1.6, 1.7],
            0x3e653b36ffde4c01,
            0x3fc75c6a073e646e,
        ),
        (
            Lorentzian(0.3),
            [4.6, 1.2, 1.4],
            0x3f97e883f2234436,
            0x3f49989a645a8cc0,
        ),
        (
            Lorentzian(0.3),
            [2.1, 7.4, 6.3],
            0x3f473d266b2d7a29,
            0xbfb40fa99101f722,
        ),
    ];
    for (shape, [f0, f1, f2], first, second) in values {
        let (one, two, flag) = slot(shape, f0, f1, f2);
        assert_eq!((one.to_bits(), two.to_bits(), flag), (first, second, 0));
    }
}

fn set() -> WeightsSet {
    WeightsSet {
        measures: TotalsMeasures {
            atoms: 1,
            first: 2,
            grid: 3,
        },
        shape: Gaussian(0.5),
        triplet: [2, 0, 1],
        bands: vec![2, 0],
        frequencies: vec![1.0, 2.0, 4.0, 1.5, 2.5, 3.5, 3.0, 4.5, 5.0],
    }
}

#[test]
fn each_entry_of_the_three_buffers_is_written() {
    let (mut first, mut second, mut flags) = ([f64::NAN; 18], [f64::NAN; 18], [9; 18]);
    let set = WeightsSet {
        shape: Box(0.75),
        ..set()
    };
    assert_eq!(
        doors::integration_weights(&set, &mut first, &mut second, &mut flags),
        0
    );
    let (inside, outside) = (1.0 / 1.5, 0.0);
    let unflagged = [2, 4, 5, 6, 9, 10, 11, 12, 15];
    let in_first = [2, 4, 5, 6, 9, 10, 12];
    for place in 0..18 {
        let value = if in_first.contains(&place) {
            inside
        } else {
            outside
        };
        assert_eq!(first[place].to_bits(), f64::to_bits(value), "{place}");
        let value = match place {
            11 => inside,
            15 => -inside,
            _ => outside,
        };
        assert_eq!(second[place].to_bits(), f64::to_bits(value), "{place}");
        assert_eq!(
            flags[place],
            u8::from(!unflagged.contains(&place)),
            "{place}"
        );
    }
}

/// The door's answer with buffers of these lengths; a refused call must leave them as found.
fn lent(set: &WeightsSet, first: usize, second: usize, flags: usize) -> u8 {
    let (mut first, mut second, mut flags) =
        (vec![-1.0; first], vec![-1.0; second], vec![9; flags]);
    let refusal = doors::integration_weights(set, &mut first, &mut second, &mut flags);
    if refusal != 0 {
        assert!(first.iter().chain(&second).all(|&x| x == -1.0));
        assert!(flags.iter().all(|&x| x == 9));
    }
    refusal
}

fn answer(change: impl FnOnce(&mut WeightsSet)) -> u8 {
    let mut set = set();
    change(&mut set);
    lent(&set, 18, 18, 18)
}

#[test]
fn measures_are_1() {
    assert_eq!(answer(|_| ()), 0);
    for beyond in [0, 9, u64::MAX] {
        assert_eq!(answer(|set| set.measures.atoms = beyond), 1);
    }
    for beyond in [0, 4, u64::MAX] {
        assert_eq!(answer(|set| set.measures.first = beyond), 1);
    }
    for beyond in [0, 65_537, u64::MAX] {
        assert_eq!(answer(|set| set.measures.grid = beyond), 1);
    }
    // Every measure at its upper limit only meets the lengths.
    let most = TotalsMeasures {
        atoms: 8,
        first: 24,
        grid: 65_536,
    };
    assert_eq!(answer(|set| set.measures = most), 2);
}

#[test]
fn lengths_are_2() {
    for length in [0, 1, 3] {
        assert_eq!(answer(|set| set.bands.resize(length, 0)), 2);
    }
    for length in [0, 8, 10] {
        assert_eq!(answer(|set| set.frequencies.resize(length, 1.0)), 2);
    }
    for length in [0, 17, 19] {
        assert_eq!(lent(&set(), length, 18, 18), 2);
        assert_eq!(lent(&set(), 18, length, 18), 2);
        assert_eq!(lent(&set(), 18, 18, length), 2);
    }
}

#[test]
fn indices_are_3() {
    for index in [-1, 3, i64::MIN, i64::MAX] {
        for place in 0..3 {
            assert_eq!(answer(|set| set.triplet[place] = index), 3);
        }
        for place in 0..2 {
            assert_eq!(answer(|set| set.bands[place] = index), 3);
        }
    }
}

#[test]
fn not_finite_is_4() {
    for x in [
        f64::NAN,
        -f64::NAN,
        f64::INFINITY,
        f64::NEG_INFINITY,
        f64::from_bits(0x7FF0_0000_0000_0001),
    ] {
        for shape in [Gaussian, Lorentzian, Box] {
            assert_eq!(answer(|set| set.shape = shape(x)), 4);
        }
        for place in 0..9 {
            assert_eq!(answer(|set| set.frequencies[place] = x), 4);
        }
        // At a point that the triplet does not name.
        let unread = |set: &mut WeightsSet| {
            set.triplet = [0, 0, 1];
            set.frequencies[8] = x;
        };
        assert_eq!(answer(unread), 4);
    }
}

#[test]
fn width_is_13() {
    for shape in [Gaussian, Lorentzian, Box] {
        for width in [0.0, -0.0, -LEAST, -0.5, f64::MIN] {
            assert_eq!(answer(|set| set.shape = shape(width)), 13, "{width:?}");
        }
        for width in [LEAST, f64::MIN_POSITIVE, 1.0, f64::MAX] {
            assert_eq!(answer(|set| set.shape = shape(width)), 0, "{width:?}");
        }
    }
}

#[test]
fn lowest_is_given() {
    type Change = fn(&mut WeightsSet);
    let changes: [(u8, Change); 5] = [
        (1, |set| set.measures.grid = 0),
        (2, |set| set.bands.push(0)),
        (3, |set| set.triplet[1] = 3),
        (4, |set| set.frequencies[0] = f64::NAN),
        (13, |set| set.shape = Box(-0.0)),
    ];
    for lowest in 0..changes.len() {
        let change = |set: &mut WeightsSet| {
            for (_, change) in &changes[lowest..] {
                change(set);
            }
        };
        assert_eq!(answer(change), changes[lowest].0);
    }
}
