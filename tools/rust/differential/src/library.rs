//! The static library's five functions, through the crate `wirambolo`.

use crate::call::{Call, Door, Foreign};
use crate::doors::{Doors, Lent};
use oracle::sets::{Anchoring, Form, Shape, Symmetry, Weighting};
use wirambolo::flat::{self, FlatTables, FlatTotals, FlatWeights};
use wirambolo::{Bath, Measures, TotalsMeasures};

/// A call in the form that the library takes.
struct Handed<'a> {
    tables: FlatTables<'a>,
    weights: u8,
    triplet: &'a [i64; 3],
    bath: Bath,
}

impl<'a> Handed<'a> {
    fn of(call: &'a Call) -> Self {
        let s = &call.set.strengths;
        let mut tables = FlatTables {
            measures: Measures {
                atoms: s.measures.atoms as usize,
                supercell: s.measures.supercell as usize,
                first: s.measures.first as usize,
                grid: s.measures.grid as usize,
                vectors: s.measures.vectors as usize,
            },
            anchoring: u8::from(s.settings.anchoring == Anchoring::Averaged),
            cutoff: s.settings.cutoff,
            form: u8::from(s.form == Form::Full),
            symmetry: u8::from(s.symmetry == Symmetry::Symmetrized),
            mesh: &s.mesh,
            matrix: &s.q_matrix,
            addresses: &s.addresses,
            vectors: &s.vectors,
            multiplicity: &s.multiplicity,
            p2s: &s.p2s,
            s2p: &s.s2p,
            masses: &s.masses,
            bands: &s.bands,
            frequencies: &s.frequencies,
            eigenvectors: &s.eigenvectors,
            shortest: &s.all_shortest,
            nonzero: &s.nonzero,
            constants: &s.force_constants,
        };
        let mut weights = u8::from(call.weighting == Weighting::AtFrequencyPoint);
        match call.foreign {
            None => (),
            Some(Foreign::Anchoring(number)) => tables.anchoring = number,
            Some(Foreign::Form(number)) => tables.form = number,
            Some(Foreign::Symmetry(number)) => tables.symmetry = number,
            Some(Foreign::Weighting(number)) => weights = number,
            Some(Foreign::Shape(_)) => (),
        }
        Handed {
            tables,
            weights,
            triplet: &call.set.triplet,
            bath: Bath {
                weight: call.set.bath.weight,
                temperature: call.set.bath.temperature,
            },
        }
    }
}

/// The weights of a shape. They are handed few tables, and the making of a `Handed` would show in their time.
fn weights(call: &Call, lent: Lent<'_>) -> u8 {
    let t = &call.set.strengths;
    let shape = match (call.foreign, call.shape) {
        (Some(Foreign::Shape(number)), _) => number,
        (_, Shape::Gaussian(_)) => 0,
        (_, Shape::Lorentzian(_)) => 1,
        (_, Shape::Box(_)) => 2,
    };
    let set = FlatWeights {
        measures: TotalsMeasures {
            atoms: t.measures.atoms as usize,
            first: t.measures.first as usize,
            grid: t.measures.grid as usize,
        },
        shape,
        width: call.shape.width(),
        triplet: &call.set.triplet,
        bands: &t.bands,
        frequencies: &t.frequencies,
    };
    flat::integration_weights_at_triplet(&set, lent.first_weights, lent.second_weights, lent.flags)
}

/// The proved library.
pub struct Library;

impl Doors for Library {
    fn answer(&self, call: &Call, lent: Lent<'_>) -> u8 {
        if call.door == Door::Weights {
            return weights(call, lent);
        }
        let h = Handed::of(call);
        let t = &h.tables;
        let flags = &call.set.strengths.flags;
        let first_weights = &call.set.first_weights;
        let second_weights = &call.set.second_weights;
        let (strengths, totals, work) = (lent.strengths, lent.totals, lent.work);
        match call.door {
            Door::Triplet => flat::get_interaction_at_triplet(t, h.triplet, flags, strengths, work),
            Door::List => {
                let list = call.list as usize;
                flat::get_interaction(t, list, &call.triplets, flags, strengths, work)
            }
            Door::Totals => {
                let set = FlatTotals {
                    measures: TotalsMeasures {
                        atoms: t.measures.atoms,
                        first: t.measures.first,
                        grid: t.measures.grid,
                    },
                    weights: h.weights,
                    triplet: h.triplet,
                    frequencies: t.frequencies,
                    cutoff: t.cutoff,
                    flags,
                    strengths: &call.read_strengths,
                    bath: h.bath,
                    first_weights,
                    second_weights,
                };
                flat::imag_self_energy_at_triplet(&set, totals)
            }
            Door::Joined => flat::joined_at_triplet(
                t,
                h.triplet,
                flags,
                h.bath,
                first_weights,
                second_weights,
                strengths,
                totals,
                work,
            ),
            Door::Weights => unreachable!("answered above"),
        }
    }
}
