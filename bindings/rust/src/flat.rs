//! The five functions on numbers, arrays and slices, as the library takes them: choices are numbers, so that a call can also have one
//! that is no choice, which is answered 255 ([`Refusal::Unreadable`](crate::Refusal::Unreadable)). For callers whose choices come as
//! numbers, from a file or another language; the functions at the crate's root have types for them.
//!
//! The answer is 0 for an accepted set, else the number of a [`Refusal`](crate::Refusal), and then no buffer is changed.

use crate::raw;
use crate::sets::{Bath, Measures, TotalsMeasures};

/// [`Tables`](crate::Tables) with choices as numbers and mesh and q matrix by reference. Layouts and lengths stand there.
#[derive(Clone, Copy, Debug, PartialEq)]
pub struct FlatTables<'a> {
    /// P, S, F, G and V.
    pub measures: Measures,
    /// 0 plain, 1 averaged.
    pub anchoring: u8,
    /// Frequencies at or below it are cut off.
    pub cutoff: f64,
    /// 0 compact, 1 full.
    pub form: u8,
    /// 0 off, 1 symmetrized.
    pub symmetry: u8,
    /// Divisions of the mesh.
    pub mesh: &'a [i64; 3],
    /// The q matrix by rows.
    pub matrix: &'a [i64; 9],
    /// Addresses of the grid points.
    pub addresses: &'a [i64],
    /// Shortest vectors.
    pub vectors: &'a [f64],
    /// How many vectors lead from an atom to a supercell atom, and the first of them.
    pub multiplicity: &'a [i64],
    /// Each atom as an atom of the supercell.
    pub p2s: &'a [i64],
    /// The supercell atom that each supercell atom is an image of.
    pub s2p: &'a [i64],
    /// Mass of each atom.
    pub masses: &'a [f64],
    /// The first bands.
    pub bands: &'a [i64],
    /// Frequency of each band at each grid point.
    pub frequencies: &'a [f64],
    /// Components of each band at each grid point, real part and imaginary part.
    pub eigenvectors: &'a [f64],
    /// Whether an atom and two supercell atoms are all shortest.
    pub shortest: &'a [u8],
    /// 0 if a row has no force constants for two supercell atoms.
    pub nonzero: &'a [u8],
    /// The force constants.
    pub constants: &'a [f64],
}

/// [`TotalsSet`](crate::TotalsSet) with the form of the weights as a number and the triplet by reference. Layouts and lengths stand there.
#[derive(Clone, Copy, Debug, PartialEq)]
pub struct FlatTotals<'a> {
    /// P, F and G.
    pub measures: TotalsMeasures,
    /// 0 per slot, 1 at a frequency point.
    pub weights: u8,
    /// Grid point of each leg.
    pub triplet: &'a [i64; 3],
    /// Frequency of each band at each grid point.
    pub frequencies: &'a [f64],
    /// Frequencies at or below it are cut off.
    pub cutoff: f64,
    /// Set (not 0) if the slot is left out.
    pub flags: &'a [u8],
    /// Strength of each slot.
    pub strengths: &'a [f64],
    /// The triplet's weight and the temperature.
    pub bath: Bath,
    /// g1 of each slot.
    pub first_weights: &'a [f64],
    /// g2 − g3 of each slot.
    pub second_weights: &'a [f64],
}

/// [`WeightsSet`](crate::WeightsSet) with the shape as a number beside its width and the triplet by reference. Layouts and lengths stand there.
#[derive(Clone, Copy, Debug, PartialEq)]
pub struct FlatWeights<'a> {
    /// P, F and G.
    pub measures: TotalsMeasures,
    /// 0 Gaussian, 1 Lorentzian, 2 box.
    pub shape: u8,
    /// The shape's width.
    pub width: f64,
    /// Grid point of each leg.
    pub triplet: &'a [i64; 3],
    /// The first bands.
    pub bands: &'a [i64],
    /// Frequency of each band at each grid point.
    pub frequencies: &'a [f64],
}

/// Calls a function of [`raw`]: a slice after `&` or `&mut` passes as its pointer and its length, another argument as it is, a reference
/// to an array as a pointer to it.
macro_rules! call {
    ($function:path; $($argument:tt)*) => { call!(@ $function, []; $($argument)*) };
    (@ $function:path, [$($done:expr,)*];) => {
        // Safety: each pointer goes with the length of its own slice, or is a reference to an array of its type; slices and arrays outlive
        // the call, and those that are written are borrowed by nobody else. The functions have no precondition.
        unsafe { $function($($done),*) }
    };
    (@ $function:path, [$($done:expr,)*]; &mut $slice:expr, $($rest:tt)*) => {
        call!(@ $function, [$($done,)* $slice.as_mut_ptr(), $slice.len(),]; $($rest)*)
    };
    (@ $function:path, [$($done:expr,)*]; &$slice:expr, $($rest:tt)*) => {
        call!(@ $function, [$($done,)* $slice.as_ptr(), $slice.len(),]; $($rest)*)
    };
    (@ $function:path, [$($done:expr,)*]; $value:expr, $($rest:tt)*) => {
        call!(@ $function, [$($done,)* $value,]; $($rest)*)
    };
}

/// The same with the tables: `[..]` is what stands between the q matrix and the addresses, the rest what follows the force constants.
macro_rules! call_with_tables {
    ($function:path, $t:expr, [$($triplets:tt)*]; $($rest:tt)*) => {
        call!(
            $function;
            $t.measures.atoms,
            $t.measures.supercell,
            $t.measures.first,
            $t.measures.grid,
            $t.measures.vectors,
            $t.anchoring,
            $t.cutoff,
            $t.form,
            $t.symmetry,
            $t.mesh,
            $t.matrix,
            $($triplets)*
            &$t.addresses,
            &$t.vectors,
            &$t.multiplicity,
            &$t.p2s,
            &$t.s2p,
            &$t.masses,
            &$t.bands,
            &$t.frequencies,
            &$t.eigenvectors,
            &$t.shortest,
            &$t.nonzero,
            &$t.constants,
            $($rest)*
        )
    };
}

/// One triplet.
pub fn get_interaction_at_triplet(
    t: &FlatTables<'_>,
    triplet: &[i64; 3],
    flags: &[u8],
    strengths: &mut [f64],
    work: &mut [f64],
) -> u8 {
    call_with_tables!(
        raw::wirambolo_get_interaction_at_triplet, t, [triplet,];
        &flags,
        &mut strengths,
        &mut work,
    )
}

/// A list of so many triplets, three grid points each.
pub fn get_interaction(
    t: &FlatTables<'_>,
    list: usize,
    triplets: &[i64],
    flags: &[u8],
    strengths: &mut [f64],
    work: &mut [f64],
) -> u8 {
    call_with_tables!(
        raw::wirambolo_get_interaction, t, [list, &triplets,];
        &flags,
        &mut strengths,
        &mut work,
    )
}

/// Totals alone.
pub fn imag_self_energy_at_triplet(s: &FlatTotals<'_>, totals: &mut [f64]) -> u8 {
    call!(
        raw::wirambolo_imag_self_energy_at_triplet;
        s.measures.atoms,
        s.measures.first,
        s.measures.grid,
        s.weights,
        s.triplet,
        &s.frequencies,
        s.cutoff,
        &s.flags,
        &s.strengths,
        s.bath.weight,
        s.bath.temperature,
        &s.first_weights,
        &s.second_weights,
        &mut totals,
    )
}

/// One triplet and its totals joined.
#[allow(clippy::too_many_arguments)]
pub fn joined_at_triplet(
    t: &FlatTables<'_>,
    triplet: &[i64; 3],
    flags: &[u8],
    bath: Bath,
    first_weights: &[f64],
    second_weights: &[f64],
    strengths: &mut [f64],
    totals: &mut [f64],
    work: &mut [f64],
) -> u8 {
    call_with_tables!(
        raw::wirambolo_joined_at_triplet, t, [triplet,];
        &flags,
        bath.weight,
        bath.temperature,
        &first_weights,
        &second_weights,
        &mut strengths,
        &mut totals,
        &mut work,
    )
}

/// Weights from a shape.
pub fn integration_weights_at_triplet(
    s: &FlatWeights<'_>,
    first_weights: &mut [f64],
    second_weights: &mut [f64],
    flags: &mut [u8],
) -> u8 {
    call!(
        raw::wirambolo_integration_weights_at_triplet;
        s.measures.atoms,
        s.measures.first,
        s.measures.grid,
        s.shape,
        s.width,
        s.triplet,
        &s.bands,
        &s.frequencies,
        &mut first_weights,
        &mut second_weights,
        &mut flags,
    )
}
