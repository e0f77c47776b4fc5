//! The doors against one another on random sets.

use super::*;
use crate::random::Random;

fn bits(numbers: &[f64]) -> Vec<u64> {
    numbers.iter().map(|x| x.to_bits()).collect()
}

fn totals_set(set: &JoinedSet, strengths: Vec<f64>) -> TotalsSet {
    let t = &set.strengths;
    TotalsSet {
        measures: TotalsMeasures {
            atoms: t.measures.atoms,
            first: t.measures.first,
            grid: t.measures.grid,
        },
        cutoff: t.settings.cutoff,
        weighting: Weighting::PerSlot,
        bath: set.bath,
        triplet: set.triplet,
        frequencies: t.frequencies.clone(),
        strengths,
        flags: t.flags.clone(),
        first_weights: set.first_weights.clone(),
        second_weights: set.second_weights.clone(),
    }
}

#[test]
fn joined_is_one_triplet_then_totals() {
    let mut random = Random(0xA076_1D64_78BD_642F);
    for _ in 0..500 {
        let set = random.joined_set();
        let m = &set.strengths.measures;
        let w = work_size(m) as usize;
        let slots = slot_count(m.atoms, m.first) as usize;
        let first = m.first as usize;
        let (mut s1, mut w1) = (vec![-1.0; slots], vec![-1.0; w + 3]);
        let (mut s2, mut t2, mut w2) = (vec![-1.0; slots], vec![-1.0; first], vec![-1.0; w + 3]);
        let mut t1 = vec![-1.0; first];
        assert_eq!(
            one_triplet(&set.strengths, set.triplet, &mut s1, &mut w1),
            0
        );
        assert_eq!(totals_alone(&totals_set(&set, s1.clone()), &mut t1), 0);
        assert_eq!(joined(&set, &mut s2, &mut t2, &mut w2), 0);
        assert_eq!((bits(&s1), bits(&t1)), (bits(&s2), bits(&t2)));
        for work in [w1, w2] {
            assert_eq!(bits(&work[..w]), vec![0; w]);
            assert_eq!(work[w..], [-1.0; 3]);
        }
    }
}

#[test]
fn list_is_its_triplets_one_by_one() {
    let mut random = Random(0xE703_7ED1_A0B4_28DB);
    for _ in 0..200 {
        let mut set = random.strengths_set(1.0);
        let list = random.between(1, 5) as usize;
        let slots = set.flags.len();
        let all: Vec<u8> = (0..list * slots)
            .map(|_| u8::from(random.chance(3)))
            .collect();
        let triplets: Vec<[i64; 3]> = (0..list)
            .map(|_| random.triplet(set.measures.grid))
            .collect();
        let w = work_size(&set.measures) as usize;
        let (mut strengths, mut work) = (vec![-1.0; list * slots], vec![-1.0; w]);
        set.flags = all.clone();
        assert_eq!(
            list_of_triplets(
                &set,
                list as u64,
                &triplets.concat(),
                &mut strengths,
                &mut work
            ),
            0
        );
        for (i, &triplet) in triplets.iter().enumerate() {
            let mut one = vec![-1.0; slots];
            set.flags = all[i * slots..(i + 1) * slots].to_vec();
            assert_eq!(one_triplet(&set, triplet, &mut one, &mut work), 0);
            assert_eq!(bits(&one), bits(&strengths[i * slots..(i + 1) * slots]));
        }
    }
}

#[test]
fn frequency_point_shares_flags_and_weights() {
    let mut random = Random(0x8EBC_6AF0_9C88_C6E3);
    for _ in 0..200 {
        let set = random.joined_set();
        let pairs = pair_count(set.strengths.measures.atoms) as usize;
        let first = set.strengths.measures.first as usize;
        let mut shared = totals_set(&set, set.first_weights.iter().map(|x| x * x).collect());
        shared.weighting = Weighting::AtFrequencyPoint;
        shared.flags.truncate(pairs);
        shared.first_weights.truncate(pairs);
        shared.second_weights.truncate(pairs);
        let mut repeated = shared.clone();
        repeated.weighting = Weighting::PerSlot;
        repeated.flags = shared.flags.repeat(first);
        repeated.first_weights = shared.first_weights.repeat(first);
        repeated.second_weights = shared.second_weights.repeat(first);
        let (mut t1, mut t2) = (vec![-1.0; first], vec![-1.0; first]);
        assert_eq!(totals_alone(&shared, &mut t1), 0);
        assert_eq!(totals_alone(&repeated, &mut t2), 0);
        assert_eq!(bits(&t1), bits(&t2));
        assert_eq!(
            totals_alone(
                &TotalsSet {
                    weighting: Weighting::PerSlot,
                    ..shared
                },
                &mut t1
            ),
            {
                if first == 1 {
                    0
                } else {
                    2
                }
            }
        );
    }
}

fn weights_set(set: &JoinedSet, shape: Shape) -> WeightsSet {
    let t = &set.strengths;
    WeightsSet {
        measures: TotalsMeasures {
            atoms: t.measures.atoms,
            first: t.measures.first,
            grid: t.measures.grid,
        },
        shape,
        triplet: set.triplet,
        bands: t.bands.clone(),
        frequencies: t.frequencies.clone(),
    }
}

#[test]
fn weights_stand_at_the_numbers_of_their_slots() {
    let mut random = Random(0x5897_89E6_0C4B_3D17);
    for _ in 0..200 {
        let width = 0.01 + random.unit().abs();
        for shape in [Shape::Gaussian, Shape::Lorentzian, Shape::Box] {
            let set = weights_set(&random.joined_set(), shape(width));
            let slots = slot_count(set.measures.atoms, set.measures.first) as usize;
            let (mut first, mut second) = (vec![-1.0; slots], vec![-1.0; slots]);
            let mut flags = vec![9; slots];
            assert_eq!(
                integration_weights(&set, &mut first, &mut second, &mut flags),
                0
            );
            let bands = 3 * set.measures.atoms as usize;
            let frequency =
                |leg: usize, band: usize| set.frequencies[set.triplet[leg] as usize * bands + band];
            for place in 0..slots {
                let (b, j, k) = (
                    place / (bands * bands),
                    place / bands % bands,
                    place % bands,
                );
                let f0 = frequency(0, set.bands[b] as usize);
                let (one, two, flag) =
                    weights::slot(set.shape, f0, frequency(1, j), frequency(2, k));
                assert_eq!(first[place].to_bits(), one.to_bits());
                assert_eq!(second[place].to_bits(), two.to_bits());
                assert_eq!(flags[place], flag);
            }
        }
    }
}

/// Both weights of a flagged slot are zero, so that the totals are the same with the flags and without.
#[test]
fn flagged_slots_have_no_part_in_the_totals() {
    let mut random = Random(0xC2B2_AE3D_27D4_EB4F);
    let mut flagged = 0;
    for _ in 0..200 {
        let mut set = random.joined_set();
        let first = set.strengths.measures.first as usize;
        let slots = set.first_weights.len();
        let strengths: Vec<f64> = (0..slots).map(|_| random.unit().abs()).collect();
        for shape in [Shape::Gaussian(0.02), Shape::Box(0.1)] {
            let handed = weights_set(&set, shape);
            let flags = &mut set.strengths.flags;
            assert_eq!(
                integration_weights(
                    &handed,
                    &mut set.first_weights,
                    &mut set.second_weights,
                    flags
                ),
                0
            );
            flagged += flags.iter().filter(|&&flag| flag == 1).count();
            let (mut with, mut without) = (vec![-1.0; first], vec![-1.0; first]);
            let totals = totals_set(&set, strengths.clone());
            assert_eq!(totals_alone(&totals, &mut with), 0);
            let unflagged = TotalsSet {
                flags: vec![0; slots],
                ..totals
            };
            assert_eq!(totals_alone(&unflagged, &mut without), 0);
            assert_eq!(bits(&with), bits(&without));
        }
    }
    assert!(flagged > 1_000, "{flagged}");
}
