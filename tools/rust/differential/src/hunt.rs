//! The oracle with mistakes: each must be told from the oracle by the same sets that the library is compared on.

use crate::call::{Call, Door};
use crate::cartons;
use crate::compare::{difference, expected, tried, work};
use crate::doors::{OracleDoors, ORACLE};
use crate::generate;
use faults::{Fault, FAULTS, NONE};

/// When and by what a mistake was found at one door.
pub struct Found {
    pub sets: u64,
    pub by: String,
}

/// One door of one mistake.
pub struct Hunt {
    pub fault: &'static Fault,
    pub door: &'static str,
    pub found: Option<Found>,
}

impl Hunt {
    /// A mistake must be found; the copy without one must not.
    pub fn is_right(&self) -> bool {
        self.found.is_some() == (self.fault.name != NONE)
    }

    fn doors(&self) -> OracleDoors {
        OracleDoors {
            one_triplet: self.fault.one_triplet,
            list_of_triplets: self.fault.list_of_triplets,
            totals_alone: self.fault.totals_alone,
            joined: self.fault.joined,
            integration_weights: self.fault.integration_weights,
            key: self.fault.key,
        }
    }
}

/// Looks for every mistake at each of its doors, of those that are named, in the first `sets` sets of the seed.
pub fn hunt(
    seed: u64,
    sets: u64,
    doors: &[Door],
    key: bool,
    mut progress: impl FnMut(&str),
) -> Vec<Hunt> {
    let mut hunts = Vec::new();
    for fault in FAULTS {
        let named = |door: &&str| match Door::named(door) {
            Some(door) => doors.contains(&door),
            None => key,
        };
        for door in fault.doors.split(' ').filter(named) {
            hunts.push(Hunt {
                fault,
                door,
                found: None,
            });
        }
    }
    for index in 0..sets {
        for &door in doors {
            hunt_in_set(&mut hunts, &generate::call(seed, door, index), index);
        }
        if key {
            hunt_in_carton(&mut hunts, seed, index);
        }
        let left = hunts.iter().filter(|hunt| hunt.found.is_none()).count();
        progress(&format!("set {} of {sets}, {left} left", index + 1));
    }
    hunts
}

fn left<'a>(hunts: &'a mut [Hunt], door: &'a str) -> impl Iterator<Item = &'a mut Hunt> {
    hunts
        .iter_mut()
        .filter(move |hunt| hunt.found.is_none() && hunt.door == door)
}

fn hunt_in_set(hunts: &mut [Hunt], call: &Call, index: u64) {
    let oracle = expected(call).unwrap_or_else(|what| panic!("set {index}: {what}"));
    for hunt in left(hunts, call.door.name()) {
        let outcome = work(&hunt.doors(), call);
        if let Some(how) = difference(call, &oracle, &outcome) {
            hunt.found = Some(Found {
                sets: index + 1,
                by: format!("{}: {how}", call.kind.name()),
            });
        }
    }
}

fn hunt_in_carton(hunts: &mut [Hunt], seed: u64, index: u64) {
    let carton = cartons::carton(seed, index);
    let oracle = (ORACLE.key)(&carton.bytes);
    for hunt in left(hunts, "key") {
        let key = hunt.fault.key;
        let printed = tried(|| key(&carton.bytes));
        if printed.as_ref().ok() != Some(&oracle) {
            hunt.found = Some(Found {
                sets: index + 1,
                by: carton.kind.name().to_string(),
            });
        }
    }
}
