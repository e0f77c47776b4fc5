//! The sets and the comparison with the oracle in the library's place: every number is reached, every pair of faults
//! answers its lowest, and a wrong outcome is told from a right one.

use differential::call::{Call, Door, Kind};
use differential::cartons;
use differential::compare::{difference, untouched_stand, work, Outcome};
use differential::doors::{Doors, Lent, ORACLE, UNKNOWN};
use differential::generate;
use differential::tally::Tally;
use oracle::sets::{work_size, Symmetry};
use std::mem::discriminant;

const SEED: u64 = 2;
const SETS: u64 = 2_400;

fn expected(call: &Call) -> Outcome {
    differential::compare::expected(call).expect("the oracle's outcome")
}

#[test]
fn sets_are_the_same_each_time() {
    for door in Door::ALL {
        for index in 0..40 {
            let (a, b) = (
                generate::call(SEED, door, index),
                generate::call(SEED, door, index),
            );
            assert_eq!(a.changed_table(&b), None);
            assert_eq!(a.planted, b.planted);
            // A planted temperature or width may be NaN.
            let bits = |call: &Call| {
                let bath = call.set.bath;
                let numbers = [bath.temperature, call.shape.width()].map(f64::to_bits);
                (bath.weight, numbers, discriminant(&call.shape))
            };
            assert_eq!(bits(&a), bits(&b));
        }
    }
}

/// Checks one door's sets; `tally` has its counts then.
fn check_door(door: Door, tally: &mut Tally) {
    for index in 0..SETS {
        let call = generate::call(SEED, door, index);
        let oracle = expected(&call);
        tally.note(&call, Some(oracle.answer));
        assert!(untouched_stand(&call, &oracle), "{} {index}", door.name());
        assert_eq!(difference(&call, &oracle, &work(&ORACLE, &call)), None);
        let lowest = call.planted.iter().map(|fault| fault.0).min();
        match (call.foreign, lowest) {
            (Some(_), _) => assert_eq!(oracle.answer, UNKNOWN),
            (None, Some(lowest)) => {
                assert_eq!(
                    oracle.answer,
                    lowest,
                    "{} {index} {:?}",
                    door.name(),
                    call.planted
                )
            }
            (None, None) => assert!(matches!(oracle.answer, 0 | 9), "{} {index}", door.name()),
        }
    }
}

#[test]
fn every_number_is_reached_at_every_door() {
    let mut tally = Tally::default();
    for door in Door::ALL {
        check_door(door, &mut tally);
        assert!(tally.answers(door, 0) > SETS / 3, "{}", tally.report());
        for &number in door.numbers() {
            assert!(tally.answers(door, number) > 20, "{}", tally.report());
            assert!(tally.alone(door, number) > 5, "{}", tally.report());
            for &higher in door.numbers().iter().filter(|&&higher| higher >= number) {
                assert!(tally.pairs(door, number, higher) > 0, "{}", tally.report());
            }
        }
    }
}

#[test]
fn every_number_is_reached_by_cartons() {
    let mut answers = [0; 13];
    for index in 0..6_000 {
        let text = oracle::carton::key(&cartons::carton(SEED, index).bytes);
        let text = String::from_utf8(text).expect("ASCII");
        let number = text
            .strip_prefix("refused ")
            .map_or(0, |n| n.trim_end().parse().expect("a number"));
        answers[number] += 1usize;
    }
    // A carton's tables always have their lengths.
    assert_eq!(answers[2], 0);
    for number in (0..13).filter(|&number| number != 2) {
        assert!(answers[number] > 50, "{answers:?}");
    }
}

/// A small accepted set of the joined door with a flagged and an unflagged slot, symmetrizing off, and a tail of work.
fn accepted() -> Call {
    (0..)
        .map(|index| generate::call(SEED, Door::Joined, index))
        .find(|call| {
            let set = &call.set.strengths;
            call.kind == Kind::Usual
                && set.measures.atoms <= 2
                && expected(call).answer == 0
                && set.symmetry == Symmetry::Off
                && set.flags.contains(&0)
                && set.flags.iter().any(|&flag| flag != 0)
                && call.before.work.len() as u128 > work_size(&set.measures)
        })
        .expect("one of the first sets is such")
}

fn copy(outcome: &Outcome) -> Outcome {
    Outcome {
        answer: outcome.answer,
        after: outcome.after.clone(),
    }
}

#[test]
fn any_changed_bit_is_a_difference() {
    let call = accepted();
    let oracle = expected(&call);
    let flip = |x: &mut f64| *x = f64::from_bits(x.to_bits() ^ 1);
    let change = |edit: &dyn Fn(&mut Outcome)| {
        let mut outcome = copy(&oracle);
        edit(&mut outcome);
        difference(&call, &oracle, &Ok(outcome)).is_some()
    };
    assert!(!change(&|_| ()));
    assert!(change(&|outcome| outcome.answer = 9));
    for place in 0..oracle.after.strengths.len() {
        assert!(change(&|outcome| flip(&mut outcome.after.strengths[place])));
    }
    for place in 0..oracle.after.totals.len() {
        assert!(change(&|outcome| flip(&mut outcome.after.totals[place])));
    }
    for place in 0..oracle.after.work.len() {
        assert!(change(&|outcome| flip(&mut outcome.after.work[place])));
    }
}

#[test]
fn any_nan_equals_any_nan_only_where_it_was_written() {
    let mut call = accepted();
    let flags = &call.set.strengths.flags;
    let written = flags.iter().position(|&flag| flag == 0).expect("unflagged");
    let flagged = flags.iter().position(|&flag| flag != 0).expect("flagged");
    call.before.strengths[flagged] = f64::NAN;
    let mut oracle = expected(&call);
    assert!(oracle.after.strengths[flagged].is_nan());
    oracle.after.strengths[written] = f64::NAN;
    let other = f64::from_bits(f64::NAN.to_bits() ^ 1);
    let with = |place: usize| {
        let mut outcome = copy(&oracle);
        outcome.after.strengths[place] = other;
        difference(&call, &oracle, &Ok(outcome)).is_some()
    };
    assert!(!with(written));
    assert!(with(flagged));
}

/// A small accepted set of the weights with a flagged and an unflagged slot.
fn accepted_weights() -> Call {
    (0..)
        .map(|index| generate::call(SEED, Door::Weights, index))
        .find(|call| {
            let outcome = expected(call);
            call.set.strengths.measures.atoms <= 2
                && outcome.answer == 0
                && outcome.after.flags.contains(&0)
                && outcome.after.flags.contains(&1)
        })
        .expect("one of the first sets is such")
}

#[test]
fn any_changed_weight_or_flag_is_a_difference() {
    let call = accepted_weights();
    let oracle = expected(&call);
    let change = |edit: &dyn Fn(&mut Outcome)| {
        let mut outcome = copy(&oracle);
        edit(&mut outcome);
        difference(&call, &oracle, &Ok(outcome)).is_some()
    };
    let flip = |x: &mut f64| *x = f64::from_bits(x.to_bits() ^ 1);
    assert!(!change(&|_| ()));
    for place in 0..oracle.after.flags.len() {
        assert!(change(&|outcome| flip(
            &mut outcome.after.first_weights[place]
        )));
        assert!(change(&|outcome| flip(
            &mut outcome.after.second_weights[place]
        )));
        assert!(change(&|outcome| outcome.after.flags[place] ^= 1));
        assert!(change(&|outcome| outcome.after.flags[place] |= 128));
    }
}

#[test]
fn any_nan_equals_any_nan_in_the_weights_of_an_accepted_set() {
    let mut call = accepted_weights();
    let other = f64::from_bits(f64::NAN.to_bits() ^ 1);
    let differs = |call: &Call| {
        let mut oracle = expected(call);
        let mut outcome = copy(&oracle);
        oracle.after.second_weights[0] = f64::NAN;
        outcome.after.second_weights[0] = other;
        difference(call, &oracle, &Ok(outcome)).is_some()
    };
    assert!(!differs(&call));
    call.set.strengths.bands[0] = -1;
    assert_eq!(expected(&call).answer, 3);
    assert!(differs(&call));
}

/// Writes one number, or stops with a panic.
struct Rough {
    panics: bool,
}

impl Doors for Rough {
    fn answer(&self, _: &Call, lent: Lent<'_>) -> u8 {
        assert!(!self.panics);
        lent.strengths[0] = 0.0;
        0
    }
}

#[test]
fn a_panic_is_a_difference() {
    let call = accepted();
    assert!(work(&Rough { panics: true }, &call).is_err());
    assert!(work(&Rough { panics: false }, &call).is_ok());
}

#[test]
fn a_table_that_changed_is_named() {
    type Edit = fn(&mut Call);
    let mut call = accepted();
    call.triplets = call.set.triplet.to_vec();
    call.read_strengths = vec![0.0];
    let changed = |edit: Edit| {
        let mut after = call.clone();
        edit(&mut after);
        call.changed_table(&after)
    };
    fn flip(x: &mut f64) {
        *x = f64::from_bits(x.to_bits() ^ (1 << 63));
    }
    assert_eq!(changed(|_| ()), None);
    let edits: [(&str, Edit); 20] = [
        ("mesh", |c| c.set.strengths.mesh[2] ^= 1),
        ("q matrix", |c| c.set.strengths.q_matrix[8] ^= 1),
        ("triplet", |c| c.set.triplet[2] ^= 1),
        ("triplets", |c| c.triplets[2] ^= 1),
        ("addresses", |c| c.set.strengths.addresses[0] ^= 1),
        ("multiplicity", |c| c.set.strengths.multiplicity[1] ^= 1),
        ("p2s", |c| c.set.strengths.p2s[0] ^= 1),
        ("s2p", |c| c.set.strengths.s2p[0] ^= 1),
        ("bands", |c| c.set.strengths.bands[0] ^= 1),
        ("vectors", |c| flip(&mut c.set.strengths.vectors[0])),
        ("masses", |c| flip(&mut c.set.strengths.masses[0])),
        ("frequencies", |c| flip(&mut c.set.strengths.frequencies[0])),
        ("eigenvectors", |c| {
            flip(&mut c.set.strengths.eigenvectors[0])
        }),
        ("force constants", |c| {
            flip(&mut c.set.strengths.force_constants[0])
        }),
        ("first weights", |c| flip(&mut c.set.first_weights[0])),
        ("second weights", |c| flip(&mut c.set.second_weights[0])),
        ("strengths read", |c| flip(&mut c.read_strengths[0])),
        ("all-shortest", |c| c.set.strengths.all_shortest[0] ^= 1),
        ("nonzero", |c| c.set.strengths.nonzero[0] ^= 1),
        ("flags", |c| c.set.strengths.flags[0] ^= 1),
    ];
    for (name, edit) in edits {
        assert_eq!(changed(edit), Some(name));
    }
}

/// The files that `key_replay` is run on are made again by the seed and count that the README names.
#[test]
fn key_replay_is_made_again() {
    let stream = differential::replay::stream(1, 300);
    let files = concat!(env!("CARGO_MANIFEST_DIR"), "/../../../crates/key_replay");
    let read = |name: &str| std::fs::read(format!("{files}/{name}")).expect("a file of key_replay");
    assert!(stream.cartons == read("stdin"), "stdin");
    assert!(stream.texts == read("stdout"), "stdout");
}
