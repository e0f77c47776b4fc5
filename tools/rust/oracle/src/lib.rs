//! The oracle: phonors itself, with document 01's exponential, sine and cosine in place of the machine's, what document 02 adds in
//! plain Rust, and the doors' refusals of both documents around them.

pub mod carton;
pub mod cell_u;
pub mod doors;
pub mod refusals;
pub mod sets;
pub mod standins;
pub mod weights;

#[cfg(test)]
mod random;

// interaction, reciprocal_to_normal, real_to_reciprocal, imag_self_energy, common, funcs: patched by build.rs.
include!(concat!(env!("OUT_DIR"), "/mods.rs"));
