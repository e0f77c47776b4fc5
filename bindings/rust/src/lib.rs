//! Three-phonon interaction strengths and band totals, proved bit for bit: safe functions over the static library `wirambolo_c`.
//!
//! | Function | What it works |
//! |---|---|
//! | [`get_interaction_at_triplet`] | the strengths of one triplet |
//! | [`get_interaction`] | the strengths of a list of triplets |
//! | [`imag_self_energy_at_triplet`] | the totals of one triplet, from its strengths |
//! | [`joined_at_triplet`] | the strengths and the totals of one triplet |
//! | [`integration_weights_at_triplet`] | the weights and the flags of one triplet, from a shape |
//!
//! Each takes a set, whose tables are borrowed for reading, and the buffers to be written. A set of any values, contents and lengths
//! may be handed in: it is worked through, or turned away with a [`Refusal`], and then no buffer is changed. No call ends otherwise,
//! goes out of range or runs on. What is written has the bits that the definitions give (`crates/phonon/specs`; weights from a shape:
//! `crates/integration_weights/specs`), any NaN counted as equal to any other. This is proved of the library's functions; this crate hands
//! slices on to them. [`flat`] has the same five on plain numbers, arrays and slices, [`raw`] the library's own declarations.
//!
//! The machine must round to nearest and keep subnormal numbers, as it does when a Rust program starts.
//!
//! # Building
//!
//! `build.rs` looks for `libwirambolo_c.a` in the folder that the environment variable `WIRAMBOLO_LIB` names, by default in
//! `target/staticlib` of the repository, where `tools/build wirambolo_c` puts it.
//!
//! # Layouts
//!
//! They stand with the fields of [`Tables`], [`TripletSet`], [`ListSet`], [`TotalsSet`], [`JoinedSet`] and [`WeightsSet`]; the lengths are
//! worked out by [`Lengths`]. P atoms in the primitive cell, S in the supercell, F first bands wanted, G grid points, V shortest vectors;
//! B = 3·P bands; R = P rows of force constants if the form is compact, S if it is full. Slot (b, j, k) is position b of the bands table at
//! the triplet's first grid point, band j at its second and band k at its third; its number is (b·B + j)·B + k ([`slot`]).

#![deny(missing_docs)]

mod doors;
pub mod flat;
mod lengths;
pub mod raw;
mod refusal;
mod sets;

pub use doors::{
    get_interaction, get_interaction_at_triplet, imag_self_energy_at_triplet,
    integration_weights_at_triplet, joined_at_triplet,
};
pub use lengths::{bands, list_slots, pairs, slot, slots, work_length, Lengths};
pub use refusal::Refusal;
pub use sets::{
    Anchoring, Bath, Form, JoinedSet, ListSet, Measures, Settings, Shape, Symmetry, Tables,
    TotalsMeasures, TotalsSet, TripletSet, Weights, WeightsSet,
};
