//! The functions of strengths and totals beside one another, on a crystal whose measures all differ; and the lengths.

mod common;

use common::{bits, crystal, crystal_list, crystals, digest, ORACLE_DIGEST};
use wirambolo::*;

fn numbers(bits: &[u64]) -> Vec<f64> {
    bits.iter().map(|&x| f64::from_bits(x)).collect()
}

/// Strengths and totals have the bits that the oracle (`tools/rust/oracle`) leaves, by their digest.
#[test]
fn oracle_bits() {
    assert_eq!(digest(&crystals()), ORACLE_DIGEST);
}

/// The joined function's strengths are one triplet's, and its totals those of totals alone.
#[test]
fn joined_is_both() {
    for cell in crystals() {
        let joined = cell.joined();
        assert_eq!(joined.answer, Ok(()));
        let one = cell.one_triplet();
        assert_eq!(one.strengths, joined.strengths);
        assert_eq!(one.work, joined.work);
        let after = cell.with(|c| c.strengths = numbers(&joined.strengths));
        let alone = after.totals_alone(Weights::PerSlot);
        assert_eq!(alone.answer, Ok(()));
        assert_eq!(alone.totals, joined.totals);
        // Something is worked, and positions 2 and 3, both of band 3, have flags and weights of their own.
        let strengths = numbers(&joined.strengths);
        let kept = |n: usize| cell.flags[n] == 0;
        assert!((0..strengths.len()).any(|n| kept(n) && strengths[n] > 0.0));
        assert_ne!(joined.totals[2], joined.totals[3]);
    }
}

/// Flagged slots stay if symmetry is off and become 0.0 if symmetrized.
#[test]
fn flagged_slots() {
    for cell in crystals() {
        let strengths = numbers(&cell.joined().strengths);
        let wanted = match cell.symmetry {
            Symmetry::Off => -1.0f64,
            Symmetry::Symmetrized => 0.0,
        };
        for (n, strength) in strengths.iter().enumerate() {
            if cell.flags[n] != 0 {
                assert_eq!(strength.to_bits(), wanted.to_bits());
            } else {
                assert!(*strength >= 0.0);
            }
        }
    }
}

/// Each triplet's part of a list is what one triplet leaves.
#[test]
fn list_is_each() {
    let list = crystal_list();
    let left = list.list();
    assert_eq!(left.answer, Ok(()));
    let slots = crystal().flags.len();
    for t in 0..2 {
        let part = t * slots..(t + 1) * slots;
        let one = crystal().with(|c| {
            c.triplets = vec![list.triplets[t]];
            c.flags = list.flags[part.clone()].to_vec();
        });
        assert_eq!(one.one_triplet().strengths, left.strengths[part]);
    }
}

/// At a frequency point: the same as one flag and one weight for each pair of later bands, repeated for each first band.
#[test]
fn frequency_point() {
    let cell = crystal().with(|c| c.strengths = numbers(&crystal().joined().strengths));
    let shared = pairs(cell.measures.atoms);
    let point = cell.with(|c| {
        c.flags.truncate(shared);
        c.first_weights.truncate(shared);
        c.second_weights.truncate(shared);
    });
    let repeated = point.with(|c| {
        let first = c.measures.first;
        c.flags = c.flags.repeat(first);
        c.first_weights = c.first_weights.repeat(first);
        c.second_weights = c.second_weights.repeat(first);
    });
    let left = point.totals_alone(Weights::AtFrequencyPoint);
    assert_eq!(left.answer, Ok(()));
    assert_eq!(left.totals, repeated.totals_alone(Weights::PerSlot).totals);
    assert_eq!(
        cell.totals_alone(Weights::AtFrequencyPoint),
        cell.untouched(Refusal::Length)
    );
}

/// The first W numbers of the work buffer are +0.0, the others as they were.
#[test]
fn work_is_cleared() {
    let cell = crystal();
    let w = work_length(2, 3);
    let mut wanted = cell.work.clone();
    wanted[..w].fill(0.0);
    assert_eq!(cell.joined().work, bits(&wanted));
}

#[test]
fn lengths() {
    assert_eq!(work_length(1, 1), 203);
    assert_eq!(work_length(8, 64), 75_712);
    assert_eq!(slot(2, 3, 4, 5), (3 * 6 + 4) * 6 + 5);
    let most = usize::MAX;
    assert_eq!(bands(most / 3 + 1), most);
    assert_eq!(pairs(most / 2 + 1), most);
    assert_eq!(work_length(most / 2 + 1, 1), most);
    assert_eq!(work_length(1, most / 2 + 1), most);
    assert_eq!(work_length(0, most), 0);
    assert_eq!(slots(most, 0), 0);
    assert_eq!(list_slots(2, 7, 5), 5 * 7 * 6 * 6);
    assert_eq!(list_slots(1, 1, most / 8 + 2), most);
    assert_eq!(list_slots(most, most, 0), 0);
    assert_eq!(list_slots(0, most, most), 0);
    assert_eq!(slot(1, most, 0, 0), most);
    let measures = Measures {
        atoms: most,
        supercell: most,
        first: most,
        grid: most,
        vectors: most,
    };
    let lengths = Lengths::of(&measures, Form::Full);
    assert_eq!((lengths.constants, lengths.slots), (most, most));
}
