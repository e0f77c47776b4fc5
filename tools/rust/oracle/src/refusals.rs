//! Refusals 1 to 9, written from document 01, and 13, from document 02. Each condition is asked only where no lower one holds, so
//! the first that holds is the answer; 0 means accepted. Nothing is written here.

use crate::doors::{matrix, rows};
use crate::interaction::compute_q_vecs;
use crate::sets::*;
use crate::standins::within_phase_limit;
use std::f64::consts::PI;
use std::ops::RangeInclusive;

const ATOMS: RangeInclusive<u64> = 1..=8;
const SUPERCELL: RangeInclusive<u64> = 1..=64;
const GRID: RangeInclusive<u64> = 1..=65_536;
const VECTORS: RangeInclusive<u64> = 1..=65_536;
const LIST: RangeInclusive<u64> = 1..=4_096;
const ADDRESS: RangeInclusive<i64> = -1_048_576..=1_048_576;
const MESH: RangeInclusive<i64> = 1..=4_096;
const Q_MATRIX: RangeInclusive<i64> = -4_096..=4_096;
const WEIGHT: RangeInclusive<i64> = 1..=2_147_483_647;

/// The six orders of the legs.
pub const LEG_ORDERS: [[usize; 3]; 6] = [
    [0, 1, 2],
    [0, 2, 1],
    [1, 0, 2],
    [1, 2, 0],
    [2, 0, 1],
    [2, 1, 0],
];

/// Lengths of the slices that a strengths door is lent for writing.
pub struct Lent {
    pub strengths: usize,
    pub work: usize,
}

/// Lengths of the slices that the weights of a shape are written to.
pub struct LentWeights {
    pub first: usize,
    pub second: usize,
    pub flags: usize,
}

/// The one-triplet door.
pub fn one_triplet(set: &StrengthsSet, triplet: [i64; 3], lent: &Lent) -> u8 {
    let slots = slot_count(set.measures.atoms, set.measures.first);
    let conditions: [&dyn Fn() -> bool; 9] = [
        &|| measures_beyond(&set.measures),
        &|| tables_mislong(set, slots) || lent_mislong(set, slots, lent),
        &|| triplets_beyond(&triplet, set.measures.grid) || tables_beyond(set),
        &|| tables_not_finite(set),
        &|| mesh_beyond(set),
        &|| masses_not_positive(set),
        &|| set.settings.cutoff < 0.0,
        &|| false,
        &|| phases_beyond(set, &[triplet]),
    ];
    lowest(&conditions)
}

/// The list door: `triplets` holds three grid points for each of `list` triplets.
pub fn list_of_triplets(set: &StrengthsSet, list: u64, triplets: &[i64], lent: &Lent) -> u8 {
    let slots = u128::from(list).saturating_mul(slot_count(set.measures.atoms, set.measures.first));
    let conditions: [&dyn Fn() -> bool; 9] = [
        &|| measures_beyond(&set.measures) || !LIST.contains(&list),
        &|| {
            mislong(triplets, 3 * u128::from(list))
                || tables_mislong(set, slots)
                || lent_mislong(set, slots, lent)
        },
        &|| triplets_beyond(triplets, set.measures.grid) || tables_beyond(set),
        &|| tables_not_finite(set),
        &|| mesh_beyond(set),
        &|| masses_not_positive(set),
        &|| set.settings.cutoff < 0.0,
        &|| false,
        &|| phases_beyond(set, &rows(triplets)),
    ];
    lowest(&conditions)
}

/// Totals alone, lent `totals` numbers for writing.
pub fn totals_alone(set: &TotalsSet, totals: usize) -> u8 {
    let conditions: [&dyn Fn() -> bool; 9] = [
        &|| totals_measures_beyond(&set.measures),
        &|| totals_mislong(set, totals),
        &|| triplets_beyond(&set.triplet, set.measures.grid),
        &|| totals_not_finite(set),
        &|| false,
        &|| false,
        &|| set.cutoff < 0.0,
        &|| bath_beyond(&set.bath),
        &|| false,
    ];
    lowest(&conditions)
}

/// The joined door, lent `totals` numbers beside the strengths and the work buffer.
pub fn joined(set: &JoinedSet, totals: usize, lent: &Lent) -> u8 {
    let tables = &set.strengths;
    let slots = slot_count(tables.measures.atoms, tables.measures.first);
    let conditions: [&dyn Fn() -> bool; 9] = [
        &|| measures_beyond(&tables.measures),
        &|| {
            tables_mislong(tables, slots)
                || lent_mislong(tables, slots, lent)
                || mislong(&set.first_weights, slots)
                || mislong(&set.second_weights, slots)
                || totals as u128 != u128::from(tables.measures.first)
        },
        &|| triplets_beyond(&set.triplet, tables.measures.grid) || tables_beyond(tables),
        &|| {
            tables_not_finite(tables)
                || not_finite(&set.first_weights)
                || not_finite(&set.second_weights)
                || !set.bath.temperature.is_finite()
        },
        &|| mesh_beyond(tables),
        &|| masses_not_positive(tables),
        &|| tables.settings.cutoff < 0.0,
        &|| bath_beyond(&set.bath),
        &|| phases_beyond(tables, &[set.triplet]),
    ];
    lowest(&conditions)
}

/// The weights of a shape. Of the numbers above 4 this door has 13 alone, which comes after all others.
pub fn integration_weights(set: &WeightsSet, lent: &LentWeights) -> u8 {
    let m = &set.measures;
    let conditions: [&dyn Fn() -> bool; 4] = [
        &|| totals_measures_beyond(m),
        &|| weights_mislong(set, lent),
        &|| {
            triplets_beyond(&set.triplet, m.grid) || indices_beyond(&set.bands, band_count(m.atoms))
        },
        &|| not_finite(&set.frequencies) || !set.shape.width().is_finite(),
    ];
    match lowest(&conditions) {
        0 if set.shape.width() <= 0.0 => 13,
        number => number,
    }
}

/// Number of the first condition that holds, counted from 1; 0 if none does. Later ones are not asked.
fn lowest(conditions: &[&dyn Fn() -> bool]) -> u8 {
    conditions
        .iter()
        .position(|holds| holds())
        .map_or(0, |place| place as u8 + 1)
}

// Number 1.

fn measures_beyond(m: &Measures) -> bool {
    !ATOMS.contains(&m.atoms)
        || !SUPERCELL.contains(&m.supercell)
        || first_beyond(m.first, m.atoms)
        || !GRID.contains(&m.grid)
        || !VECTORS.contains(&m.vectors)
}

fn totals_measures_beyond(m: &TotalsMeasures) -> bool {
    !ATOMS.contains(&m.atoms) || first_beyond(m.first, m.atoms) || !GRID.contains(&m.grid)
}

fn first_beyond(first: u64, atoms: u64) -> bool {
    first < 1 || u128::from(first) > band_count(atoms)
}

// Number 2.

fn mislong<T>(table: &[T], length: u128) -> bool {
    table.len() as u128 != length
}

fn tables_mislong(set: &StrengthsSet, slots: u128) -> bool {
    let l = Lengths::of(&set.measures, set.form);
    mislong(&set.addresses, l.addresses)
        || mislong(&set.vectors, l.vectors)
        || mislong(&set.multiplicity, l.multiplicity)
        || mislong(&set.p2s, l.p2s)
        || mislong(&set.s2p, l.s2p)
        || mislong(&set.masses, l.masses)
        || mislong(&set.bands, l.bands)
        || mislong(&set.frequencies, l.frequencies)
        || mislong(&set.eigenvectors, l.eigenvectors)
        || mislong(&set.all_shortest, l.all_shortest)
        || mislong(&set.nonzero, l.nonzero)
        || mislong(&set.flags, slots)
        || mislong(&set.force_constants, l.force_constants)
}

fn lent_mislong(set: &StrengthsSet, slots: u128, lent: &Lent) -> bool {
    lent.strengths as u128 != slots || (lent.work as u128) < work_size(&set.measures)
}

fn totals_mislong(set: &TotalsSet, totals: usize) -> bool {
    let m = &set.measures;
    let slots = slot_count(m.atoms, m.first);
    let entries = match set.weighting {
        Weighting::PerSlot => slots,
        Weighting::AtFrequencyPoint => pair_count(m.atoms),
    };
    mislong(&set.frequencies, frequency_count(m.atoms, m.grid))
        || mislong(&set.strengths, slots)
        || mislong(&set.flags, entries)
        || mislong(&set.first_weights, entries)
        || mislong(&set.second_weights, entries)
        || totals as u128 != u128::from(m.first)
}

fn weights_mislong(set: &WeightsSet, lent: &LentWeights) -> bool {
    let m = &set.measures;
    let slots = slot_count(m.atoms, m.first);
    mislong(&set.bands, m.first.into())
        || mislong(&set.frequencies, frequency_count(m.atoms, m.grid))
        || [lent.first, lent.second, lent.flags]
            .iter()
            .any(|&length| length as u128 != slots)
}

// Number 3.

/// True if an entry is not in 0 to count − 1.
fn indices_beyond(table: &[i64], count: u128) -> bool {
    table
        .iter()
        .any(|&index| index < 0 || index as u128 >= count)
}

fn triplets_beyond(triplets: &[i64], grid: u64) -> bool {
    indices_beyond(triplets, grid.into())
}

fn tables_beyond(set: &StrengthsSet) -> bool {
    let supercell = u128::from(set.measures.supercell);
    indices_beyond(&set.p2s, supercell)
        || indices_beyond(&set.s2p, supercell)
        || indices_beyond(&set.bands, band_count(set.measures.atoms))
        || set
            .multiplicity
            .chunks(2)
            .any(|entry| vectors_beyond(entry[0], entry[1], set.measures.vectors))
}

fn vectors_beyond(count: i64, start: i64, vectors: u64) -> bool {
    count < 1 || start < 0 || i128::from(start) + i128::from(count) > i128::from(vectors)
}

// Number 4.

fn not_finite(table: &[f64]) -> bool {
    table.iter().any(|x| !x.is_finite())
}

fn tables_not_finite(set: &StrengthsSet) -> bool {
    not_finite(&set.vectors)
        || not_finite(&set.masses)
        || not_finite(&set.frequencies)
        || not_finite(&set.eigenvectors)
        || not_finite(&set.force_constants)
        || !set.settings.cutoff.is_finite()
}

/// In totals alone the strengths are for reading.
fn totals_not_finite(set: &TotalsSet) -> bool {
    not_finite(&set.frequencies)
        || not_finite(&set.strengths)
        || not_finite(&set.first_weights)
        || not_finite(&set.second_weights)
        || !set.cutoff.is_finite()
        || !set.bath.temperature.is_finite()
}

// Numbers 5, 6 and 8.

fn mesh_beyond(set: &StrengthsSet) -> bool {
    set.addresses
        .iter()
        .any(|address| !ADDRESS.contains(address))
        || set.mesh.iter().any(|size| !MESH.contains(size))
        || set.q_matrix.iter().any(|entry| !Q_MATRIX.contains(entry))
}

fn masses_not_positive(set: &StrengthsSet) -> bool {
    set.masses.iter().any(|&mass| mass <= 0.0)
}

fn bath_beyond(bath: &Bath) -> bool {
    !WEIGHT.contains(&bath.weight) || bath.temperature.is_sign_negative()
}

// Number 9.

/// Every phase that the source computes for the triplets: of all three legs with every vector of every entry, and
/// of every atom's pre-factor in each order of the legs that is worked.
fn phases_beyond(set: &StrengthsSet, triplets: &[[i64; 3]]) -> bool {
    let addresses = rows(&set.addresses);
    let vectors = rows(&set.vectors);
    triplets.iter().any(|&triplet| {
        let q = compute_q_vecs(triplet, &addresses, set.mesh, matrix(set.q_matrix));
        q.iter().any(|&leg| leg_phases_beyond(set, &vectors, leg))
            || pre_phases_beyond(set, &vectors, &q)
    })
}

/// q of each leg of a triplet.
pub fn q_vectors(set: &StrengthsSet, triplet: [i64; 3]) -> [[f64; 3]; 3] {
    compute_q_vecs(
        triplet,
        &rows(&set.addresses),
        set.mesh,
        matrix(set.q_matrix),
    )
}

fn leg_phases_beyond(set: &StrengthsSet, vectors: &[[f64; 3]], q: [f64; 3]) -> bool {
    set.multiplicity.chunks(2).any(|entry| {
        let (count, start) = (entry[0] as usize, entry[1] as usize);
        vectors[start..start + count].iter().any(|s| {
            let phase = (q[0] * s[0] + q[1] * s[1] + q[2] * s[2]) * 2.0 * PI;
            !within_phase_limit(phase)
        })
    })
}

fn pre_phases_beyond(set: &StrengthsSet, vectors: &[[f64; 3]], q: &[[f64; 3]; 3]) -> bool {
    let orders = match set.symmetry {
        Symmetry::Off => &LEG_ORDERS[..1],
        Symmetry::Symmetrized => &LEG_ORDERS[..],
    };
    set.p2s.iter().any(|&atom| {
        let entry = atom as usize * set.measures.atoms as usize;
        let start = set.multiplicity[2 * entry + 1] as usize;
        orders
            .iter()
            .any(|order| !within_phase_limit(pre_phase(vectors[start], order.map(|leg| q[leg]))))
    })
}

/// Phase of the pre-factor: the vector dotted with the sum of the three q, summed in the order given.
pub fn pre_phase(s: [f64; 3], q: [[f64; 3]; 3]) -> f64 {
    let mut phase = 0.0;
    for axis in 0..3 {
        phase += s[axis] * (q[0][axis] + q[1][axis] + q[2][axis]);
    }
    phase * (2.0 * PI)
}

#[cfg(test)]
mod tests;
