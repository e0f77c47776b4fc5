//! The set of a seed, a door and an index.

use crate::call::{Call, Door, Kind};
use crate::damage;
use crate::phases;
use crate::random::Random;
use crate::tables::{self, Outline};
use crate::weights;

/// Kinds in the order of `Kind::ALL`, each as likely as its weight: those of a door.
fn likely(door: Door) -> [usize; 13] {
    match door {
        Door::Weights => [140, 110, 60, 100, 100, 30, 0, 12, 0, 130, 220, 200, 25],
        _ => [140, 110, 45, 80, 70, 20, 40, 12, 90, 0, 220, 200, 25],
    }
}

/// The set with this index; the same for the same arguments on any machine.
pub fn call(seed: u64, door: Door, index: u64) -> Call {
    let mut random = Random::of(seed, door as u64, index);
    let random = &mut random;
    match Kind::ALL[random.weighted(&likely(door))] {
        Kind::OneFault => damaged(random, door, 1),
        Kind::TwoFaults => damaged(random, door, 2),
        Kind::Foreign => foreign(random, door),
        kind => good(random, door, kind),
    }
}

/// A set within the limits; phases near or at their ends may go beyond. Where what a kind asks for cannot be made in the set, it is
/// counted as usual.
fn good(random: &mut Random, door: Door, kind: Kind) -> Call {
    let outline = if kind == Kind::Limits {
        Outline::at_a_limit(random, door)
    } else {
        Outline::random(random, door)
    };
    let mut call = tables::call(random, door, kind, &outline);
    if door == Door::Weights {
        weights::make(random, &mut call);
        return call;
    }
    let part = match kind {
        Kind::Far => Some(random.pick(&[0.3, 0.9, 0.999_999, 1.0, 1.0])),
        _ => None,
    };
    phases::make(random, &mut call, part);
    let made = match kind {
        Kind::Far => door.has_strengths_tables(),
        Kind::Idle => tables::make_idle(random, &mut call),
        Kind::Edge if random.chance(4) => phases::put_beyond_in_one_order(random, &mut call),
        Kind::Edge => phases::put_at_the_end(random, &mut call),
        _ => true,
    };
    if !made {
        call.kind = Kind::Usual;
    }
    match kind {
        Kind::Huge if random.chance(2) => tables::make_hot(random, &mut call),
        Kind::Tiny if door.has_strengths_tables() && random.chance(4) => {
            phases::make_least_vectors(random, &mut call)
        }
        Kind::Tiny if random.chance(3) => tables::make_cold(random, &mut call),
        _ => (),
    }
    call
}

/// Faults are planted in sets of every other kind.
fn base(random: &mut Random, door: Door) -> Call {
    let kind = match random.below(12) {
        0 if random.chance(6) => Kind::Limits,
        1 | 2 => Kind::Coarse,
        3 => Kind::Huge,
        4 => Kind::Tiny,
        5 => Kind::Idle,
        _ => Kind::Usual,
    };
    good(random, door, kind)
}

fn damaged(random: &mut Random, door: Door, faults: usize) -> Call {
    let mut call = base(random, door);
    let numbers: Vec<u8> = (0..faults).map(|_| random.pick(door.numbers())).collect();
    damage::plant(random, &mut call, &numbers);
    call
}

/// An unknown choice in a good set, or in one that is refused besides.
fn foreign(random: &mut Random, door: Door) -> Call {
    let mut call = if random.chance(2) {
        damaged(random, door, 1)
    } else {
        base(random, door)
    };
    damage::make_foreign(random, &mut call);
    call
}
