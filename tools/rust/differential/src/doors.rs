//! The five doors as one trait: the oracle, the oracle with mistakes and the library are compared through it.

use crate::call::{Call, Door};
use oracle::sets::*;

/// The answer to a choice that has no such number, through C.
pub const UNKNOWN: u8 = 255;

/// Buffers lent for writing.
pub struct Lent<'a> {
    pub strengths: &'a mut [f64],
    pub totals: &'a mut [f64],
    pub work: &'a mut [f64],
    pub first_weights: &'a mut [f64],
    pub second_weights: &'a mut [f64],
    pub flags: &'a mut [u8],
}

pub trait Doors {
    fn answer(&self, call: &Call, lent: Lent<'_>) -> u8;
}

type OneTriplet = fn(&StrengthsSet, [i64; 3], &mut [f64], &mut [f64]) -> u8;
type ListOfTriplets = fn(&StrengthsSet, u64, &[i64], &mut [f64], &mut [f64]) -> u8;
type TotalsAlone = fn(&TotalsSet, &mut [f64]) -> u8;
type Joined = fn(&JoinedSet, &mut [f64], &mut [f64], &mut [f64]) -> u8;
type IntegrationWeights = fn(&WeightsSet, &mut [f64], &mut [f64], &mut [u8]) -> u8;

/// Five functions in the oracle's form, and `key` in bytes.
#[derive(Clone, Copy)]
pub struct OracleDoors {
    pub one_triplet: OneTriplet,
    pub list_of_triplets: ListOfTriplets,
    pub totals_alone: TotalsAlone,
    pub joined: Joined,
    pub integration_weights: IntegrationWeights,
    pub key: fn(&[u8]) -> Vec<u8>,
}

/// The oracle itself.
pub const ORACLE: OracleDoors = OracleDoors {
    one_triplet: oracle::doors::one_triplet,
    list_of_triplets: oracle::doors::list_of_triplets,
    totals_alone: oracle::doors::totals_alone,
    joined: oracle::doors::joined,
    integration_weights: oracle::doors::integration_weights,
    key: oracle::carton::key,
};

impl Doors for OracleDoors {
    fn answer(&self, call: &Call, lent: Lent<'_>) -> u8 {
        if call.foreign.is_some() {
            return UNKNOWN;
        }
        let tables = &call.set.strengths;
        match call.door {
            Door::Triplet => {
                (self.one_triplet)(tables, call.set.triplet, lent.strengths, lent.work)
            }
            Door::List => (self.list_of_triplets)(
                tables,
                call.list,
                &call.triplets,
                lent.strengths,
                lent.work,
            ),
            Door::Totals => (self.totals_alone)(&call.totals_set(), lent.totals),
            Door::Joined => (self.joined)(&call.set, lent.strengths, lent.totals, lent.work),
            Door::Weights => (self.integration_weights)(
                &call.weights_set(),
                lent.first_weights,
                lent.second_weights,
                lent.flags,
            ),
        }
    }
}
