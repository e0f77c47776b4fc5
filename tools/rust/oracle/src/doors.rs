//! The five doors. Each answers with the number of its refusal and then leaves everything as found, or with 0,
//! and then the patched source has worked the set, or for the weights of a shape `weights.rs`.

use crate::common::Cmplx;
use crate::imag_self_energy::{
    imag_self_energy_at_triplet, set_g_pos, set_g_pos_at_frequency_point,
};
use crate::interaction::{get_interaction, get_interaction_at_triplet, InteractionScratch};
use crate::real_to_reciprocal::AtomTriplets;
use crate::refusals::{self, Lent, LentWeights};
use crate::sets::*;
use crate::weights;
use std::ops::Range;

/// Strengths of one triplet.
pub fn one_triplet(
    set: &StrengthsSet,
    triplet: [i64; 3],
    strengths: &mut [f64],
    work: &mut [f64],
) -> u8 {
    let lent = Lent {
        strengths: strengths.len(),
        work: work.len(),
    };
    let refusal = refusals::one_triplet(set, triplet, &lent);
    if refusal == 0 {
        SourceTables::of(set).work_triplet(triplet, strengths);
        clear_work(&set.measures, work);
    }
    refusal
}

/// Strengths of a list of triplets, three grid points each, one after another.
pub fn list_of_triplets(
    set: &StrengthsSet,
    list: u64,
    triplets: &[i64],
    strengths: &mut [f64],
    work: &mut [f64],
) -> u8 {
    let lent = Lent {
        strengths: strengths.len(),
        work: work.len(),
    };
    let refusal = refusals::list_of_triplets(set, list, triplets, &lent);
    if refusal == 0 {
        SourceTables::of(set).work_list(&rows(triplets), strengths);
        clear_work(&set.measures, work);
    }
    refusal
}

/// Totals of strengths handed in.
pub fn totals_alone(set: &TotalsSet, totals: &mut [f64]) -> u8 {
    let refusal = refusals::totals_alone(set, totals.len());
    if refusal == 0 {
        let sum = TotalsSum {
            first: set.measures.first,
            atoms: set.measures.atoms,
            weighting: set.weighting,
            cutoff: set.cutoff,
            bath: set.bath,
            triplet: set.triplet,
            frequencies: &set.frequencies,
            flags: &set.flags,
            first_weights: &set.first_weights,
            second_weights: &set.second_weights,
        };
        sum.work(&set.strengths, totals);
    }
    refusal
}

/// Strengths of one triplet, and the totals of these strengths per slot.
pub fn joined(set: &JoinedSet, strengths: &mut [f64], totals: &mut [f64], work: &mut [f64]) -> u8 {
    let lent = Lent {
        strengths: strengths.len(),
        work: work.len(),
    };
    let refusal = refusals::joined(set, totals.len(), &lent);
    if refusal == 0 {
        let tables = &set.strengths;
        SourceTables::of(tables).work_triplet(set.triplet, strengths);
        let sum = TotalsSum {
            first: tables.measures.first,
            atoms: tables.measures.atoms,
            weighting: Weighting::PerSlot,
            cutoff: tables.settings.cutoff,
            bath: set.bath,
            triplet: set.triplet,
            frequencies: &tables.frequencies,
            flags: &tables.flags,
            first_weights: &set.first_weights,
            second_weights: &set.second_weights,
        };
        sum.work(strengths, totals);
        clear_work(&tables.measures, work);
    }
    refusal
}

/// Both weights and the flag of every slot, from a shape.
pub fn integration_weights(
    set: &WeightsSet,
    first: &mut [f64],
    second: &mut [f64],
    flags: &mut [u8],
) -> u8 {
    let lent = LentWeights {
        first: first.len(),
        second: second.len(),
        flags: flags.len(),
    };
    let refusal = refusals::integration_weights(set, &lent);
    if refusal == 0 {
        weights::work(set, first, second, flags);
    }
    refusal
}

/// An accepted call leaves the first W numbers of the work buffer at +0.0.
fn clear_work(measures: &Measures, work: &mut [f64]) {
    work[..work_size(measures) as usize].fill(0.0);
}

/// A flat table as rows of N.
pub fn rows<T: Copy, const N: usize>(flat: &[T]) -> Vec<[T; N]> {
    flat.chunks_exact(N)
        .map(|row| std::array::from_fn(|place| row[place]))
        .collect()
}

/// The q matrix as the source takes it.
pub fn matrix(flat: [i64; 9]) -> [[i64; 3]; 3] {
    std::array::from_fn(|row| std::array::from_fn(|column| flat[row * 3 + column]))
}

/// The source's flags are signed bytes; it asks only whether they are zero.
pub fn signed(flags: &[u8]) -> Vec<i8> {
    flags.iter().map(|&flag| flag as i8).collect()
}

/// The tables of a set in the shapes that the source takes.
pub struct SourceTables<'a> {
    set: &'a StrengthsSet,
    addresses: Vec<[i64; 3]>,
    vectors: Vec<[f64; 3]>,
    multiplicity: Vec<[i64; 2]>,
    eigenvectors: Vec<Cmplx>,
    all_shortest: Vec<i8>,
    nonzero: Vec<i8>,
    flags: Vec<i8>,
}

impl<'a> SourceTables<'a> {
    pub fn of(set: &'a StrengthsSet) -> Self {
        SourceTables {
            set,
            addresses: rows(&set.addresses),
            vectors: rows(&set.vectors),
            multiplicity: rows(&set.multiplicity),
            eigenvectors: rows(&set.eigenvectors),
            all_shortest: signed(&set.all_shortest),
            nonzero: signed(&set.nonzero),
            flags: signed(&set.flags),
        }
    }

    fn atom_triplets(&self) -> AtomTriplets<'_> {
        AtomTriplets {
            svecs: &self.vectors,
            num_satom: self.set.measures.supercell as usize,
            num_patom: self.set.measures.atoms as usize,
            multiplicity: &self.multiplicity,
            p2s_map: &self.set.p2s,
            s2p_map: &self.set.s2p,
            make_r0_average: self.set.settings.anchoring == Anchoring::Averaged,
            all_shortest: &self.all_shortest,
            nonzero_indices: &self.nonzero,
        }
    }

    pub(crate) fn work_triplet(&self, triplet: [i64; 3], strengths: &mut [f64]) {
        let slots = 0..self.flags.len();
        self.work_slots(triplet, slots, strengths, &mut InteractionScratch::new());
    }

    /// One triplet, whose flags stand at `slots` among all flags, as the source's driver works it.
    pub fn work_slots(
        &self,
        triplet: [i64; 3],
        slots: Range<usize>,
        strengths: &mut [f64],
        scratch: &mut InteractionScratch,
    ) {
        get_interaction_at_triplet(
            strengths,
            &self.flags[slots],
            self.set.measures.first as usize,
            3 * self.set.measures.atoms as usize,
            &self.set.frequencies,
            &self.eigenvectors,
            triplet,
            &self.addresses,
            self.set.mesh,
            matrix(self.set.q_matrix),
            &self.set.force_constants,
            self.set.form == Form::Compact,
            &self.atom_triplets(),
            &self.set.masses,
            &self.set.bands,
            self.set.symmetry == Symmetry::Symmetrized,
            self.set.settings.cutoff,
            false,
            scratch,
        );
    }

    fn work_list(&self, triplets: &[[i64; 3]], strengths: &mut [f64]) {
        get_interaction(
            strengths,
            &self.flags,
            &self.set.frequencies,
            &self.eigenvectors,
            triplets,
            &self.addresses,
            self.set.mesh,
            matrix(self.set.q_matrix),
            &self.set.force_constants,
            self.set.form == Form::Compact,
            &self.atom_triplets(),
            &self.set.masses,
            &self.set.bands,
            self.set.symmetry == Symmetry::Symmetrized,
            self.set.settings.cutoff,
            self.set.measures.first as usize,
            3 * self.set.measures.atoms as usize,
        );
    }
}

/// What the source's sum of totals reads beside the strengths.
struct TotalsSum<'a> {
    first: u64,
    atoms: u64,
    weighting: Weighting,
    cutoff: f64,
    bath: Bath,
    triplet: [i64; 3],
    frequencies: &'a [f64],
    flags: &'a [u8],
    first_weights: &'a [f64],
    second_weights: &'a [f64],
}

impl TotalsSum<'_> {
    fn work(&self, strengths: &[f64], totals: &mut [f64]) {
        let first = self.first as usize;
        let bands = 3 * self.atoms as usize;
        let flags = signed(self.flags);
        let mut g_pos = Vec::new();
        match self.weighting {
            Weighting::PerSlot => set_g_pos(&mut g_pos, &flags, first, bands),
            Weighting::AtFrequencyPoint => {
                g_pos = set_g_pos_at_frequency_point(&flags, first, bands)
            }
        }
        imag_self_energy_at_triplet(
            totals,
            first,
            bands,
            strengths,
            self.frequencies,
            self.triplet,
            self.bath.weight,
            self.first_weights,
            self.second_weights,
            &g_pos,
            self.bath.temperature,
            self.cutoff,
            self.weighting == Weighting::AtFrequencyPoint,
        );
    }
}

#[cfg(test)]
mod tests;
