//! The bits that the tests of the bindings compare with, whole or as digests: made here by the oracle itself, from the same crystals.

// The crystals' file names the crate wirambolo. Here that is this test: the bindings' own types, with the oracle behind the function that
// the digest is made by, so that no library is needed.
extern crate self as wirambolo;

#[path = "../../../../bindings/rust/tests/common/mod.rs"]
mod common;
#[allow(dead_code)]
#[path = "../../../../bindings/rust/src/lengths.rs"]
mod lengths;
#[allow(dead_code)]
#[path = "../../../../bindings/rust/src/refusal.rs"]
mod refusal;
#[path = "../../../../bindings/rust/src/sets.rs"]
mod sets;

pub use lengths::Lengths;
use oracle::sets as of_oracle;
pub use refusal::Refusal;
pub use sets::*;

type Answer = Result<(), Refusal>;

fn oracle_set(set: &JoinedSet) -> of_oracle::JoinedSet {
    let t = &set.tables;
    let strengths = of_oracle::StrengthsSet {
        measures: of_oracle::Measures {
            atoms: t.measures.atoms as u64,
            supercell: t.measures.supercell as u64,
            first: t.measures.first as u64,
            grid: t.measures.grid as u64,
            vectors: t.measures.vectors as u64,
        },
        settings: of_oracle::Settings {
            anchoring: match t.settings.anchoring {
                Anchoring::Plain => of_oracle::Anchoring::Plain,
                Anchoring::Averaged => of_oracle::Anchoring::Averaged,
            },
            cutoff: t.settings.cutoff,
        },
        form: match t.form {
            Form::Compact => of_oracle::Form::Compact,
            Form::Full => of_oracle::Form::Full,
        },
        symmetry: match t.symmetry {
            Symmetry::Off => of_oracle::Symmetry::Off,
            Symmetry::Symmetrized => of_oracle::Symmetry::Symmetrized,
        },
        mesh: t.mesh,
        q_matrix: t.matrix,
        addresses: t.addresses.to_vec(),
        vectors: t.vectors.to_vec(),
        multiplicity: t.multiplicity.to_vec(),
        p2s: t.p2s.to_vec(),
        s2p: t.s2p.to_vec(),
        masses: t.masses.to_vec(),
        bands: t.bands.to_vec(),
        frequencies: t.frequencies.to_vec(),
        eigenvectors: t.eigenvectors.to_vec(),
        all_shortest: t.shortest.to_vec(),
        nonzero: t.nonzero.to_vec(),
        flags: set.flags.to_vec(),
        force_constants: t.constants.to_vec(),
    };
    of_oracle::JoinedSet {
        strengths,
        triplet: set.triplet,
        bath: of_oracle::Bath {
            weight: set.bath.weight,
            temperature: set.bath.temperature,
        },
        first_weights: set.first_weights.to_vec(),
        second_weights: set.second_weights.to_vec(),
    }
}

pub fn joined_at_triplet(
    set: &JoinedSet,
    strengths: &mut [f64],
    totals: &mut [f64],
    work: &mut [f64],
) -> Answer {
    match oracle::doors::joined(&oracle_set(set), strengths, totals, work) {
        0 => Ok(()),
        number => Err(Refusal::from_number(number).expect("a refusal's number")),
    }
}

pub fn get_interaction_at_triplet(_: &TripletSet, _: &mut [f64], _: &mut [f64]) -> Answer {
    unreachable!("the digest is of the joined function")
}

pub fn get_interaction(_: &ListSet, _: &mut [f64], _: &mut [f64]) -> Answer {
    unreachable!("the digest is of the joined function")
}

pub fn imag_self_energy_at_triplet(_: &TotalsSet, _: &mut [f64]) -> Answer {
    unreachable!("the digest is of the joined function")
}

#[test]
fn the_oracle_makes_the_digest() {
    let cells = common::crystals();
    assert!(cells.iter().all(|cell| cell.joined().answer.is_ok()));
    assert_eq!(common::digest(&cells), common::ORACLE_DIGEST);
}

/// The Python test holds the same number.
#[test]
fn python_has_the_same_digest() {
    let test = include_str!("../../../../bindings/python/test_wirambolo.py");
    assert!(test.contains(&format!("0x{:016X}", common::ORACLE_DIGEST)));
}

const SHAPES: [fn(f64) -> of_oracle::Shape; 3] = [
    of_oracle::Shape::Gaussian,
    of_oracle::Shape::Lorentzian,
    of_oracle::Shape::Box,
];

/// Every line of the slots: shape, width, three frequencies, and what they give.
#[test]
fn the_oracle_makes_the_slots_of_the_weights() {
    for line in include_str!("../../../../bindings/weights.txt").lines() {
        let words: Vec<&str> = line.split(' ').collect();
        let number = |place: usize| {
            f64::from_bits(u64::from_str_radix(words[place], 16).expect("the bits of a number"))
        };
        let shape = SHAPES[words[0].parse::<usize>().expect("a shape")](number(1));
        let (first, second, flag) = oracle::weights::slot(shape, number(2), number(3), number(4));
        assert_eq!(first.to_bits(), number(5).to_bits(), "{line}");
        let nan = second.is_nan() && number(6).is_nan();
        assert!(nan || second.to_bits() == number(6).to_bits(), "{line}");
        assert_eq!(flag.to_string(), words[7], "{line}");
    }
}

/// The tests in all three languages hold these numbers.
#[test]
fn the_oracle_makes_the_digests_of_the_weights() {
    let cell = common::crystal();
    let tests = [
        include_str!("../../../../bindings/rust/tests/weights.rs"),
        include_str!("../../../../bindings/python/test_wirambolo.py"),
        include_str!("../../../../bindings/c/test.c"),
    ]
    .map(|test| test.replace('_', "").to_lowercase());
    for (shape, width) in SHAPES.into_iter().zip([0.1, 0.1, 0.7]) {
        let set = of_oracle::WeightsSet {
            measures: of_oracle::TotalsMeasures {
                atoms: cell.measures.atoms as u64,
                first: cell.measures.first as u64,
                grid: cell.measures.grid as u64,
            },
            shape: shape(width),
            triplet: cell.triplets[0],
            bands: cell.bands.clone(),
            frequencies: cell.frequencies.clone(),
        };
        let (mut first, mut second, mut flags) = (vec![0.0; 144], vec![0.0; 144], vec![0; 144]);
        let answer = oracle::doors::integration_weights(&set, &mut first, &mut second, &mut flags);
        assert_eq!(answer, 0);
        let numbers = [common::bits(&first), common::bits(&second)].concat();
        let bytes = numbers.into_iter().flat_map(u64::to_le_bytes);
        let digest = common::fnv1a(bytes.chain(flags));
        for test in &tests {
            assert!(
                test.contains(&format!("0x{digest:016x}")),
                "{:?}",
                set.shape
            );
        }
    }
}
