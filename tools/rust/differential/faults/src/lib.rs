//! The oracle with mistakes: one copy for each fault of faults.txt, written by build.rs.

use oracle::sets::*;

/// A mistake, the doors (and `key`) that must show it, and the doors with it.
pub struct Fault {
    pub name: &'static str,
    pub doors: &'static str,
    pub one_triplet: fn(&StrengthsSet, [i64; 3], &mut [f64], &mut [f64]) -> u8,
    pub list_of_triplets: fn(&StrengthsSet, u64, &[i64], &mut [f64], &mut [f64]) -> u8,
    pub totals_alone: fn(&TotalsSet, &mut [f64]) -> u8,
    pub joined: fn(&JoinedSet, &mut [f64], &mut [f64], &mut [f64]) -> u8,
    pub integration_weights: fn(&WeightsSet, &mut [f64], &mut [f64], &mut [u8]) -> u8,
    pub key: fn(&[u8]) -> Vec<u8>,
}

/// The first, "none", is the oracle's text without a mistake.
pub const NONE: &str = "none";

include!(concat!(env!("OUT_DIR"), "/faults.rs"));
