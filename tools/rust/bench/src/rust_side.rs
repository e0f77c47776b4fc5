//! The Rust source's functions on tables in its own shapes, with one scratch for all calls as in its own driver; and document 02's
//! weights in plain Rust, with their tests.

use crate::case::Timed;
use crate::measure::next;
use differential::call::{Call, Door};
use oracle::doors::{integration_weights, rows, signed, SourceTables};
use oracle::imag_self_energy::{get_imag_self_energy_with_g, imag_self_energy_at_triplet};
use oracle::interaction::InteractionScratch;
use oracle::sets::{slot_count, WeightsSet};
use std::hint::black_box;

pub struct RustSide<'a> {
    call: &'a Call,
    /// Those of the weights, gone through in turn.
    weights_sets: Vec<WeightsSet>,
    turn: usize,
    tables: SourceTables<'a>,
    flags: Vec<i8>,
    /// First weights, then second weights, as the source's driver takes them.
    weights: Vec<f64>,
    scratch: InteractionScratch,
    pub strengths: Vec<f64>,
    pub totals: Vec<f64>,
    pub first_weights: Vec<f64>,
    pub second_weights: Vec<f64>,
    pub weights_flags: Vec<u8>,
}

impl<'a> RustSide<'a> {
    /// The tables of the first call; one strengths call leaves the unflagged slots' positions in the scratch. Of the weights, the sets
    /// of all calls.
    pub fn of(calls: &'a [Call]) -> Self {
        let call = &calls[0];
        let mut side = RustSide {
            call,
            weights_sets: vec![],
            turn: 0,
            tables: SourceTables::of(&call.set.strengths),
            flags: signed(&call.set.strengths.flags),
            weights: [&call.set.first_weights[..], &call.set.second_weights].concat(),
            scratch: InteractionScratch::new(),
            strengths: call.before.strengths.clone(),
            totals: call.before.totals.clone(),
            first_weights: call.before.first_weights.clone(),
            second_weights: call.before.second_weights.clone(),
            weights_flags: call.before.flags.clone(),
        };
        if call.door == Door::Weights {
            side.weights_sets = calls.iter().map(Call::weights_set).collect();
        } else {
            side.triplet(call.set.triplet, 0);
        }
        side
    }

    pub fn work(&mut self, timed: Timed) {
        match timed {
            Timed::Triplet => self.triplet(self.call.set.triplet, 0),
            Timed::List => {
                for (place, triplet) in rows(&self.call.triplets).into_iter().enumerate() {
                    self.triplet(triplet, place);
                }
            }
            Timed::Totals => self.totals(false),
            Timed::TotalsFromFlags => self.totals_from_flags(),
            Timed::Joined => {
                self.triplet(self.call.set.triplet, 0);
                self.totals(true);
            }
            Timed::Weights => self.weights(),
        }
    }

    /// The weights of the next set.
    fn weights(&mut self) {
        let set = &self.weights_sets[self.turn];
        self.turn = next(self.turn, self.weights_sets.len());
        black_box(integration_weights(
            set,
            &mut self.first_weights,
            &mut self.second_weights,
            &mut self.weights_flags,
        ));
    }

    /// One triplet, into its own part of the strengths.
    fn triplet(&mut self, triplet: [i64; 3], place: usize) {
        let m = &self.call.set.strengths.measures;
        let slots = slot_count(m.atoms, m.first) as usize;
        let part = place * slots..(place + 1) * slots;
        let strengths = &mut self.strengths[part.clone()];
        self.tables
            .work_slots(triplet, part, strengths, &mut self.scratch);
    }

    /// Totals with the positions that the last strengths call left; of its strengths, or of those handed in.
    fn totals(&mut self, own_strengths: bool) {
        let set = &self.call.set;
        let strengths = if own_strengths {
            &self.strengths
        } else {
            &self.call.read_strengths
        };
        imag_self_energy_at_triplet(
            &mut self.totals,
            set.strengths.measures.first as usize,
            3 * set.strengths.measures.atoms as usize,
            strengths,
            &set.strengths.frequencies,
            set.triplet,
            set.bath.weight,
            &set.first_weights,
            &set.second_weights,
            &self.scratch.g_pos,
            set.bath.temperature,
            set.strengths.settings.cutoff,
            false,
        );
    }

    /// Totals by the source's driver for a list, here of one triplet, which finds the positions from the flags.
    fn totals_from_flags(&mut self) {
        let set = &self.call.set;
        get_imag_self_energy_with_g(
            &mut self.totals,
            &self.call.read_strengths,
            &set.strengths.frequencies,
            &[set.triplet],
            &[set.bath.weight],
            &self.weights,
            &self.flags,
            set.bath.temperature,
            set.strengths.settings.cutoff,
            0,
            -1,
            set.strengths.measures.first as usize,
            3 * set.strengths.measures.atoms as usize,
        );
    }
}
