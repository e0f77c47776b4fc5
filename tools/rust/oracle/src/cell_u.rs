//! Document 01's cell U, the base of the key cases.

use crate::sets::*;

/// Place of force constant (l, m, n) in its block of 27.
pub fn element(l: usize, m: usize, n: usize) -> usize {
    l * 9 + m * 3 + n
}

/// Number of slot (b, j, k) for three bands.
pub fn slot(b: usize, j: usize, k: usize) -> usize {
    (b * 3 + j) * 3 + k
}

/// Cell U, ready for the joined door and the carton.
pub fn cell_u() -> JoinedSet {
    JoinedSet {
        strengths: strengths_u(),
        triplet: [0; 3],
        bath: Bath {
            weight: 3,
            temperature: 0.0,
        },
        first_weights: vec![2.0; 27],
        second_weights: vec![0.0; 27],
    }
}

fn strengths_u() -> StrengthsSet {
    let mut force_constants = vec![0.0; 27];
    force_constants[element(0, 1, 2)] = 16.0;
    StrengthsSet {
        measures: Measures {
            atoms: 1,
            supercell: 1,
            first: 3,
            grid: 1,
            vectors: 1,
        },
        settings: Settings {
            anchoring: Anchoring::Plain,
            cutoff: 0.5,
        },
        form: Form::Compact,
        symmetry: Symmetry::Off,
        mesh: [1; 3],
        q_matrix: [1, 0, 0, 0, 1, 0, 0, 0, 1],
        addresses: vec![0; 3],
        vectors: vec![0.0; 3],
        multiplicity: vec![1, 0],
        p2s: vec![0],
        s2p: vec![0],
        masses: vec![4.0],
        bands: vec![0, 1, 2],
        frequencies: vec![1.0, 2.0, 4.0],
        eigenvectors: identity_eigenvectors(),
        all_shortest: vec![0],
        nonzero: vec![1],
        flags: vec![0; 27],
        force_constants,
    }
}

/// Component, band, then real and imaginary part: 1 where component and band agree.
fn identity_eigenvectors() -> Vec<f64> {
    (0..18)
        .map(|place| if place % 8 == 0 { 1.0 } else { 0.0 })
        .collect()
}
