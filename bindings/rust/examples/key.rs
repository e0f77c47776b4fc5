//! Cell U of the key cases, its frequencies 3, 1 and 2: weights and flags from a box of half-width 0.25, with them strengths and totals by
//! the joined function; prints its key.
//!
//!     cargo run --offline --example key
//!
//! A set that is turned away prints `refused N`, and the exit status is 1.

use std::process::ExitCode;
use wirambolo::*;

const MEASURES: Measures = Measures {
    atoms: 1,
    supercell: 1,
    first: 3,
    grid: 1,
    vectors: 1,
};
const LENGTHS: Lengths = Lengths::of(&MEASURES, Form::Compact);

const BANDS: [i64; 3] = [0, 1, 2];
const FREQUENCIES: [f64; 3] = [3.0, 1.0, 2.0];

fn main() -> ExitCode {
    match key() {
        Ok(()) => ExitCode::SUCCESS,
        Err(refusal) => {
            println!("refused {}", refusal.number());
            ExitCode::FAILURE
        }
    }
}

fn key() -> Result<(), Refusal> {
    let Measures {
        atoms, first, grid, ..
    } = MEASURES;
    let set = WeightsSet {
        measures: TotalsMeasures { atoms, first, grid },
        shape: Shape::Box(0.25),
        triplet: [0; 3],
        bands: &BANDS,
        frequencies: &FREQUENCIES,
    };
    let mut first_weights = [0.0; LENGTHS.slots];
    let mut second_weights = [0.0; LENGTHS.slots];
    let mut flags = [0; LENGTHS.slots];
    integration_weights_at_triplet(&set, &mut first_weights, &mut second_weights, &mut flags)?;

    let mut constants = [0.0; LENGTHS.constants];
    constants[3 + 2] = 16.0;
    let mut eigenvectors = [0.0; LENGTHS.eigenvectors];
    for band in 0..3 {
        eigenvectors[2 * (3 * band + band)] = 1.0;
    }
    let set = JoinedSet {
        tables: Tables {
            measures: MEASURES,
            settings: Settings {
                anchoring: Anchoring::Plain,
                cutoff: 0.5,
            },
            form: Form::Compact,
            symmetry: Symmetry::Symmetrized,
            mesh: [1; 3],
            matrix: [1, 0, 0, 0, 1, 0, 0, 0, 1],
            addresses: &[0; 3],
            vectors: &[0.0; 3],
            multiplicity: &[1, 0],
            p2s: &[0],
            s2p: &[0],
            masses: &[4.0],
            bands: &BANDS,
            frequencies: &FREQUENCIES,
            eigenvectors: &eigenvectors,
            shortest: &[0],
            nonzero: &[1],
            constants: &constants,
        },
        triplet: [0; 3],
        flags: &flags,
        bath: Bath {
            weight: 3,
            temperature: 1.0,
        },
        first_weights: &first_weights,
        second_weights: &second_weights,
    };
    let mut strengths = [0.0; LENGTHS.slots];
    let mut totals = [0.0; LENGTHS.totals];
    let mut work = [0.0; LENGTHS.work];
    joined_at_triplet(&set, &mut strengths, &mut totals, &mut work)?;
    print_key(&flags, &strengths, &totals);
    Ok(())
}

/// The slots whose flag is not set, by b, then k, then j; then the totals.
fn print_key(flags: &[u8], strengths: &[f64], totals: &[f64]) {
    let Measures { atoms, first, .. } = MEASURES;
    println!("bands {first}");
    for b in 0..first {
        for k in 0..bands(atoms) {
            for j in 0..bands(atoms) {
                let n = slot(atoms, b, j, k);
                if flags[n] == 0 {
                    println!("slot {b} {j} {k} {:016x}", bits_of(strengths[n]));
                }
            }
        }
    }
    for (b, &total) in totals.iter().enumerate() {
        println!("total {b} {:016x}", bits_of(total));
    }
}

/// The bits of x; every NaN counts as one.
fn bits_of(x: f64) -> u64 {
    if x.is_nan() {
        0x7ff8_0000_0000_0000
    } else {
        x.to_bits()
    }
}
