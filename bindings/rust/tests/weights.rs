//! Weights from a shape: by their bits, on the crystal, into the joined function; and every number, with buffers untouched.

mod common;

use common::{bits, cell_u, crystal, fnv1a, Cell};
use wirambolo::flat::{self, FlatWeights};
use wirambolo::*;

type Change = fn(&mut Cell);

/// Each shape, of a width.
const SHAPES: [fn(f64) -> Shape; 3] = [Shape::Gaussian, Shape::Lorentzian, Shape::Box];

/// What a call answers and leaves, numbers as bits.
#[derive(Clone, Debug, PartialEq)]
struct Weighed {
    answer: Result<(), Refusal>,
    first_weights: Vec<u64>,
    second_weights: Vec<u64>,
    flags: Vec<u8>,
}

/// The cell as a call leaves it, and the answer.
fn worked(cell: &Cell, shape: Shape) -> (Cell, Result<(), Refusal>) {
    let Measures {
        atoms, first, grid, ..
    } = cell.measures;
    let set = WeightsSet {
        measures: TotalsMeasures { atoms, first, grid },
        shape,
        triplet: cell.triplets[0],
        bands: &cell.bands,
        frequencies: &cell.frequencies,
    };
    let mut left = cell.clone();
    let answer = integration_weights_at_triplet(
        &set,
        &mut left.first_weights,
        &mut left.second_weights,
        &mut left.flags,
    );
    (left, answer)
}

fn weighed(cell: &Cell, shape: Shape) -> Weighed {
    let (left, answer) = worked(cell, shape);
    Weighed {
        answer,
        ..held(&left)
    }
}

/// What the cell holds, as of a set that is accepted.
fn held(cell: &Cell) -> Weighed {
    Weighed {
        answer: Ok(()),
        first_weights: bits(&cell.first_weights),
        second_weights: bits(&cell.second_weights),
        flags: cell.flags.clone(),
    }
}

/// Turned away so by each shape of this width, and nothing changed.
fn refuses(cell: &Cell, width: f64, refusal: Refusal, name: &str) {
    let untouched = Weighed {
        answer: Err(refusal),
        ..held(cell)
    };
    for shape in SHAPES {
        assert_eq!(weighed(cell, shape(width)), untouched, "{name}");
    }
}

/// Something in both weights and the flags.
fn filled(weight: f64, flag: u8) -> impl Fn(&mut Cell) {
    move |c| {
        c.first_weights.fill(weight);
        c.second_weights.fill(weight);
        c.flags.fill(flag);
    }
}

/// Every line of `bindings/weights.txt`: shape, width, the three frequencies of a slot, and what it is left, numbers by their bits. The
/// frequencies are those of all bands at a leg's grid point, so that each slot is such a slot. `bindings/python/test_wirambolo.py` works the
/// lines out from the formulas.
#[test]
fn by_bits() {
    let lines: Vec<&str> = include_str!("../../weights.txt").lines().collect();
    assert_eq!(lines.len(), 31);
    for line in lines {
        let words: Vec<&str> = line.split(' ').collect();
        let [shape, width, f0, f1, f2, first, second, flag] = words[..] else {
            panic!("{line}");
        };
        let number = |word: &str| u64::from_str_radix(word, 16).unwrap();
        let float = |word: &str| f64::from_bits(number(word));
        let cell = cell_u().with(|c| {
            c.measures.first = 2;
            c.measures.grid = 3;
            c.bands = vec![2, 0];
            c.triplets = vec![[2, 0, 1]];
            c.frequencies = [f1, f2, f0].iter().flat_map(|f| [float(f); 3]).collect();
            c.first_weights.truncate(18);
            c.second_weights.truncate(18);
            c.flags.truncate(18);
            filled(-1.0, 170)(c);
        });
        let shape: usize = shape.parse().unwrap();
        let left = weighed(&cell, SHAPES[shape](float(width)));
        assert_eq!(left.answer, Ok(()));
        assert_eq!(left.first_weights, [number(first); 18], "{line}");
        let same = |bits: &u64| match f64::from_bits(*bits) {
            x if x.is_nan() => float(second).is_nan(),
            _ => *bits == number(second),
        };
        assert!(left.second_weights.iter().all(same), "{line}: {left:?}");
        assert_eq!(left.flags, [flag.parse().unwrap(); 18], "{line}");
    }
}

/// All slots of the crystal, whatever stands in the buffers before: by digests of first weights, second weights and flags, from the formulas,
/// as `bindings/python/test_wirambolo.py` works them out.
#[test]
fn crystal_bits() {
    let digests = [
        (Shape::Gaussian(0.1), 0x1766_c933_2bee_884b),
        (Shape::Lorentzian(0.1), 0x8452_ca4e_2374_60cd),
        (Shape::Box(0.7), 0xb152_8659_8ba3_d741),
    ];
    for (shape, digest) in digests {
        for (weight, flag) in [(-1.0, 0), (f64::NAN, 255)] {
            let left = weighed(&crystal().with(filled(weight, flag)), shape);
            assert_eq!(left.answer, Ok(()));
            let numbers = [left.first_weights, left.second_weights].concat();
            let bytes = numbers.into_iter().flat_map(u64::to_le_bytes);
            assert_eq!(fnv1a(bytes.chain(left.flags)), digest, "{shape:?}");
        }
    }
}

/// The weights go on into the functions that read them; one that is not finite is turned away there.
#[test]
fn into_totals() {
    for shape in SHAPES {
        let (cell, answer) = worked(&crystal(), shape(0.7));
        assert_eq!(answer, Ok(()));
        let joined = cell.joined();
        assert_eq!(joined.answer, Ok(()));
        let strengths = joined.strengths.iter().map(|&x| f64::from_bits(x));
        let alone = cell
            .with(|c| c.strengths = strengths.collect())
            .totals_alone(Weights::PerSlot);
        assert_eq!(alone.totals, joined.totals);
        assert_ne!(joined.totals, crystal().joined().totals);

        // infinite, and less infinite a NaN
        let (cell, answer) = worked(&crystal().with(|c| c.frequencies.fill(0.0)), shape(5e-324));
        assert_eq!(answer, Ok(()));
        assert!(cell.first_weights.iter().all(|&x| x == f64::INFINITY));
        assert!(cell.second_weights.iter().all(|x| x.is_nan()));
        assert!(cell.flags.iter().all(|&flag| flag == 0));
        assert_eq!(cell.joined(), cell.untouched(Refusal::NotFinite));
        let alone = cell.totals_alone(Weights::PerSlot);
        assert_eq!(alone, cell.untouched(Refusal::NotFinite));
    }
}

#[test]
fn refusals() {
    let changes: [(&str, Refusal, Change); 12] = [
        ("atoms", Refusal::Measure, |c| c.measures.atoms = 0),
        ("atoms", Refusal::Measure, |c| c.measures.atoms = 9),
        ("first", Refusal::Measure, |c| c.measures.first = 0),
        ("first", Refusal::Measure, |c| c.measures.first = 7),
        ("grid", Refusal::Measure, |c| c.measures.grid = 0),
        ("grid", Refusal::Measure, |c| c.measures.grid = 65_537),
        ("triplet", Refusal::Index, |c| c.triplets[0][2] = 5),
        ("triplet", Refusal::Index, |c| c.triplets[0][0] = -1),
        ("bands", Refusal::Index, |c| c.bands[3] = 6),
        ("bands", Refusal::Index, |c| c.bands[0] = -1),
        // of grid point 3, the triplet's third, and of 4, which is none of its
        ("frequencies", Refusal::NotFinite, |c| {
            c.frequencies[18] = f64::INFINITY
        }),
        ("frequencies", Refusal::NotFinite, |c| {
            c.frequencies[29] = f64::NAN
        }),
    ];
    for (name, refusal, change) in changes {
        // 13 is above them all
        for width in [0.1, 0.0] {
            refuses(&crystal().with(change), width, refusal, name);
        }
    }
    for width in [f64::NAN, f64::INFINITY, f64::NEG_INFINITY] {
        refuses(&crystal(), width, Refusal::NotFinite, "width");
    }
    for width in [0.0, -0.0, -5e-324, f64::MIN] {
        refuses(&crystal(), width, Refusal::Width, "width");
    }
    // measures at their limits are turned away for their tables' lengths
    let within: [Change; 4] = [
        |c| c.measures.atoms = 8,
        |c| c.measures.first = 1,
        |c| c.measures.first = 6,
        |c| c.measures.grid = 65_536,
    ];
    for change in within {
        refuses(&crystal().with(change), 0.1, Refusal::Length, "within");
    }
    // supercell and vectors are none of its measures
    let cell = crystal().with(|c| (c.measures.supercell, c.measures.vectors) = (0, 0));
    assert_eq!(worked(&cell, Shape::Box(0.1)).1, Ok(()));
}

/// One entry less and one more in each slice.
#[test]
fn lengths() {
    let shorter: [(&str, Change); 5] = [
        ("bands", |c| c.bands.truncate(3)),
        ("frequencies", |c| c.frequencies.truncate(29)),
        ("first weights", |c| c.first_weights.truncate(143)),
        ("second weights", |c| c.second_weights.truncate(143)),
        ("flags", |c| c.flags.truncate(143)),
    ];
    let longer: [(&str, Change); 5] = [
        ("bands", |c| c.bands.push(0)),
        ("frequencies", |c| c.frequencies.push(1.0)),
        ("first weights", |c| c.first_weights.push(1.0)),
        ("second weights", |c| c.second_weights.push(1.0)),
        ("flags", |c| c.flags.push(0)),
    ];
    for (name, change) in shorter.into_iter().chain(longer) {
        refuses(&crystal().with(change), 0.1, Refusal::Length, name);
    }
}

/// A shape that is not known, before measures and a width that are refused too: only `flat` can be called so.
#[test]
fn unreadable() {
    for (shape, atoms, width) in [(3, 1, 0.1), (255, 0, f64::NAN)] {
        let set = FlatWeights {
            measures: TotalsMeasures {
                atoms,
                first: 3,
                grid: 1,
            },
            shape,
            width,
            triplet: &[0; 3],
            bands: &[0, 1, 2],
            frequencies: &[0.0; 3],
        };
        let (mut first, mut second, mut flags) = ([-1.0; 27], [-1.0; 27], [170; 27]);
        let answer =
            flat::integration_weights_at_triplet(&set, &mut first, &mut second, &mut flags);
        assert_eq!(Refusal::from_number(answer), Some(Refusal::Unreadable));
        assert_eq!((first, second, flags), ([-1.0; 27], [-1.0; 27], [170; 27]));
    }
}

/// The numbers of the shapes, and their widths.
#[test]
fn shapes() {
    for (number, shape) in SHAPES.into_iter().enumerate() {
        assert_eq!(usize::from(shape(0.1).number()), number);
        assert_eq!(shape(0.1).width(), 0.1);
    }
}
