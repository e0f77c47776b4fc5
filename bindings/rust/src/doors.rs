//! The five functions.

use crate::flat::{self, FlatTables, FlatTotals, FlatWeights};
use crate::refusal::Refusal;
use crate::sets::{JoinedSet, ListSet, Tables, TotalsSet, TripletSet, WeightsSet};

/// The strengths of one triplet.
///
/// `strengths` has an entry for each slot, F·B·B; `work` at least [`work_length`](crate::work_length) entries. What they hold before
/// the call is free. Accepted: each slot that is not flagged has its strength, a flagged one is as it was (symmetry off) or 0.0
/// (symmetrized); the first W entries of `work` are +0.0 and the others as they were.
///
/// # Errors
///
/// Every refusal but [`Bath`](Refusal::Bath) and [`Width`](Refusal::Width). Nothing is changed then.
///
/// # Panics
///
/// If the library answers a number that is none of [`Refusal`]'s: it is of another edition than this crate.
///
/// # Examples
///
/// ```
/// use wirambolo::*;
///
/// let mut constants = [0.0; 27];
/// constants[5] = 16.0;
/// let mut eigenvectors = [0.0; 18];
/// for band in 0..3 {
///     eigenvectors[2 * (3 * band + band)] = 1.0;
/// }
/// let tables = Tables {
///     measures: Measures { atoms: 1, supercell: 1, first: 3, grid: 1, vectors: 1 },
///     settings: Settings { anchoring: Anchoring::Plain, cutoff: 0.5 },
///     form: Form::Compact,
///     symmetry: Symmetry::Off,
///     mesh: [1; 3],
///     matrix: [1, 0, 0, 0, 1, 0, 0, 0, 1],
///     addresses: &[0; 3],
///     vectors: &[0.0; 3],
///     multiplicity: &[1, 0],
///     p2s: &[0],
///     s2p: &[0],
///     masses: &[4.0],
///     bands: &[0, 1, 2],
///     frequencies: &[1.0, 2.0, 4.0],
///     eigenvectors: &eigenvectors,
///     shortest: &[0],
///     nonzero: &[1],
///     constants: &constants,
/// };
/// let set = TripletSet { tables, triplet: [0; 3], flags: &[0; 27] };
/// let mut strengths = [0.0; 27];
/// let mut work = [0.0; work_length(1, 1)];
/// get_interaction_at_triplet(&set, &mut strengths, &mut work)?;
/// assert_eq!(strengths[slot(1, 0, 1, 2)], 0.5);
///
/// // One number less in the work buffer.
/// let refused = get_interaction_at_triplet(&set, &mut strengths, &mut work[1..]);
/// assert_eq!(refused, Err(Refusal::Length));
/// # Ok::<(), Refusal>(())
/// ```
pub fn get_interaction_at_triplet(
    set: &TripletSet<'_>,
    strengths: &mut [f64],
    work: &mut [f64],
) -> Result<(), Refusal> {
    answer(flat::get_interaction_at_triplet(
        &flat_tables(&set.tables),
        &set.triplet,
        set.flags,
        strengths,
        work,
    ))
}

/// The strengths of a list of triplets.
///
/// `strengths` has F·B·B entries for each triplet; those of triplet t begin at t·F·B·B. The whole list is tested before anything is
/// written, and one triplet that is turned away turns away the list. Accepted, each triplet's part is what
/// [`get_interaction_at_triplet`] leaves of it; all use the one work buffer.
///
/// # Errors
///
/// Every refusal but [`Bath`](Refusal::Bath) and [`Width`](Refusal::Width). Nothing is changed then.
///
/// # Panics
///
/// If the library answers a number that is none of [`Refusal`]'s: it is of another edition than this crate.
///
/// # Examples
///
/// ```
/// # use wirambolo::*;
/// /// Measures and list within their limits: beyond them, a buffer may be longer than memory is.
/// fn strengths_of(tables: Tables, triplets: &[[i64; 3]]) -> Result<Vec<f64>, Refusal> {
///     let Measures { atoms, supercell, first, .. } = tables.measures;
///     let slots = list_slots(atoms, first, triplets.len());
///     let set = ListSet { tables, triplets, flags: &vec![0; slots] };
///     let mut strengths = vec![0.0; slots];
///     let mut work = vec![0.0; work_length(atoms, supercell)];
///     get_interaction(&set, &mut strengths, &mut work)?;
///     Ok(strengths)
/// }
/// ```
pub fn get_interaction(
    set: &ListSet<'_>,
    strengths: &mut [f64],
    work: &mut [f64],
) -> Result<(), Refusal> {
    answer(flat::get_interaction(
        &flat_tables(&set.tables),
        set.triplets.len(),
        set.triplets.as_flattened(),
        set.flags,
        strengths,
        work,
    ))
}

/// Totals alone: the totals of one triplet, from strengths that are handed in.
///
/// `totals` has F entries. Accepted, each is the sum over its slots that are not flagged and whose two later frequencies lie above
/// the cutoff; 0.0 if there is none.
///
/// # Errors
///
/// [`Measure`](Refusal::Measure), [`Length`](Refusal::Length), [`Index`](Refusal::Index), [`NotFinite`](Refusal::NotFinite) (an infinite
/// strength or a NaN too), [`Cutoff`](Refusal::Cutoff), [`Bath`](Refusal::Bath). Nothing is changed then.
///
/// # Panics
///
/// If the library answers a number that is none of [`Refusal`]'s: it is of another edition than this crate.
///
/// # Examples
///
/// ```
/// use wirambolo::*;
///
/// let mut strengths = [0.0; 27];
/// strengths[slot(1, 0, 1, 2)] = 0.5;
/// let set = TotalsSet {
///     measures: TotalsMeasures { atoms: 1, first: 3, grid: 1 },
///     weights: Weights::PerSlot,
///     triplet: [0; 3],
///     frequencies: &[1.0, 2.0, 4.0],
///     cutoff: 0.5,
///     flags: &[0; 27],
///     strengths: &strengths,
///     bath: Bath { weight: 3, temperature: 0.0 },
///     first_weights: &[2.0; 27],
///     second_weights: &[0.0; 27],
/// };
/// let mut totals = [0.0; 3];
/// imag_self_energy_at_triplet(&set, &mut totals)?;
/// assert_eq!(totals, [3.0, 0.0, 0.0]);
///
/// let below = TotalsSet { bath: Bath { weight: 3, temperature: -0.0 }, ..set };
/// assert_eq!(imag_self_energy_at_triplet(&below, &mut totals), Err(Refusal::Bath));
/// # Ok::<(), Refusal>(())
/// ```
pub fn imag_self_energy_at_triplet(set: &TotalsSet<'_>, totals: &mut [f64]) -> Result<(), Refusal> {
    let flat = FlatTotals {
        measures: set.measures,
        weights: set.weights as u8,
        triplet: &set.triplet,
        frequencies: set.frequencies,
        cutoff: set.cutoff,
        flags: set.flags,
        strengths: set.strengths,
        bath: set.bath,
        first_weights: set.first_weights,
        second_weights: set.second_weights,
    };
    answer(flat::imag_self_energy_at_triplet(&flat, totals))
}

/// The strengths and the totals of one triplet.
///
/// Accepted, `strengths` and `work` are what [`get_interaction_at_triplet`] leaves, and `totals` what
/// [`imag_self_energy_at_triplet`] makes of those strengths; infinite strengths and NaN go into the totals here.
///
/// # Errors
///
/// Every refusal but [`Width`](Refusal::Width). Nothing is changed then.
///
/// # Panics
///
/// If the library answers a number that is none of [`Refusal`]'s: it is of another edition than this crate.
///
/// # Examples
///
/// The example `key` (`examples/key.rs`) works cell U through this function, with weights from a shape.
pub fn joined_at_triplet(
    set: &JoinedSet<'_>,
    strengths: &mut [f64],
    totals: &mut [f64],
    work: &mut [f64],
) -> Result<(), Refusal> {
    answer(flat::joined_at_triplet(
        &flat_tables(&set.tables),
        &set.triplet,
        set.flags,
        set.bath,
        set.first_weights,
        set.second_weights,
        strengths,
        totals,
        work,
    ))
}

/// Weights from a shape: both weights and the flag of each slot of one triplet, as the other functions read them.
///
/// `first_weights`, `second_weights` and `flags` have an entry for each slot, F·B·B; what they hold before the call is free. Accepted,
/// every entry is written. With f0 the frequency of the first band at position b, f1 of band j, f2 of band k, each at its leg's grid
/// point, slot (b, j, k) has as its first weight the [`Shape`](crate::Shape) at (f0 − f1) − f2, as its second weight the shape at
/// (f0 + f1) − f2 less that at (f0 − f1) + f2, and as its flag 1 if all three are zero, else 0. What overflows is kept: a weight may come
/// out infinite and a second weight a NaN, and the functions that read weights then answer [`NotFinite`](Refusal::NotFinite).
///
/// # Errors
///
/// [`Measure`](Refusal::Measure), [`Length`](Refusal::Length), [`Index`](Refusal::Index), [`NotFinite`](Refusal::NotFinite) (the width
/// too), [`Width`](Refusal::Width). Nothing is changed then.
///
/// # Panics
///
/// If the library answers a number that is none of [`Refusal`]'s: it is of another edition than this crate.
///
/// # Examples
///
/// ```
/// use wirambolo::*;
///
/// let set = WeightsSet {
///     measures: TotalsMeasures { atoms: 1, first: 3, grid: 1 },
///     shape: Shape::Box(0.25),
///     triplet: [0; 3],
///     bands: &[0, 1, 2],
///     frequencies: &[3.0, 1.0, 2.0],
/// };
/// let (mut first_weights, mut second_weights, mut flags) = ([0.0; 27], [0.0; 27], [0; 27]);
/// integration_weights_at_triplet(&set, &mut first_weights, &mut second_weights, &mut flags)?;
/// // 3 = 1 + 2
/// assert_eq!((first_weights[slot(1, 0, 1, 2)], flags[slot(1, 0, 1, 2)]), (2.0, 0));
/// assert_eq!((first_weights[slot(1, 0, 1, 1)], flags[slot(1, 0, 1, 1)]), (0.0, 1));
///
/// let narrow = WeightsSet { shape: Shape::Gaussian(0.0), ..set };
/// let refused = integration_weights_at_triplet(&narrow, &mut first_weights, &mut second_weights, &mut flags);
/// assert_eq!(refused, Err(Refusal::Width));
/// # Ok::<(), Refusal>(())
/// ```
pub fn integration_weights_at_triplet(
    set: &WeightsSet<'_>,
    first_weights: &mut [f64],
    second_weights: &mut [f64],
    flags: &mut [u8],
) -> Result<(), Refusal> {
    let flat = FlatWeights {
        measures: set.measures,
        shape: set.shape.number(),
        width: set.shape.width(),
        triplet: &set.triplet,
        bands: set.bands,
        frequencies: set.frequencies,
    };
    answer(flat::integration_weights_at_triplet(
        &flat,
        first_weights,
        second_weights,
        flags,
    ))
}

fn flat_tables<'a>(t: &'a Tables<'_>) -> FlatTables<'a> {
    FlatTables {
        measures: t.measures,
        anchoring: t.settings.anchoring as u8,
        cutoff: t.settings.cutoff,
        form: t.form as u8,
        symmetry: t.symmetry as u8,
        mesh: &t.mesh,
        matrix: &t.matrix,
        addresses: t.addresses,
        vectors: t.vectors,
        multiplicity: t.multiplicity,
        p2s: t.p2s,
        s2p: t.s2p,
        masses: t.masses,
        bands: t.bands,
        frequencies: t.frequencies,
        eigenvectors: t.eigenvectors,
        shortest: t.shortest,
        nonzero: t.nonzero,
        constants: t.constants,
    }
}

/// The library's answer: 0 is accepted. It gives no number but those of `Refusal`.
fn answer(number: u8) -> Result<(), Refusal> {
    if number == 0 {
        return Ok(());
    }
    match Refusal::from_number(number) {
        Some(refusal) => Err(refusal),
        None => panic!("libwirambolo_c.a answered {number}: it is of another edition"),
    }
}
