//! Owned sets for the tests: cell U of document 01, and a crystal whose measures all differ.

#![allow(dead_code)]

use wirambolo::*;

/// All that the functions are handed but a shape, and what the buffers hold before the call.
#[derive(Clone)]
pub struct Cell {
    pub measures: Measures,
    pub settings: Settings,
    pub form: Form,
    pub symmetry: Symmetry,
    pub mesh: [i64; 3],
    pub matrix: [i64; 9],
    pub addresses: Vec<i64>,
    pub vectors: Vec<f64>,
    pub multiplicity: Vec<i64>,
    pub p2s: Vec<i64>,
    pub s2p: Vec<i64>,
    pub masses: Vec<f64>,
    pub bands: Vec<i64>,
    pub frequencies: Vec<f64>,
    pub eigenvectors: Vec<f64>,
    pub shortest: Vec<u8>,
    pub nonzero: Vec<u8>,
    pub constants: Vec<f64>,
    /// The triplets of a list; the other functions work the first.
    pub triplets: Vec<[i64; 3]>,
    /// The flags of a list, or of one triplet.
    pub flags: Vec<u8>,
    pub bath: Bath,
    pub first_weights: Vec<f64>,
    pub second_weights: Vec<f64>,
    pub strengths: Vec<f64>,
    pub totals: Vec<f64>,
    pub work: Vec<f64>,
}

/// What a call answers and leaves, numbers as bits.
#[derive(Clone, Debug, PartialEq)]
pub struct Left {
    pub answer: Result<(), Refusal>,
    pub strengths: Vec<u64>,
    pub totals: Vec<u64>,
    pub work: Vec<u64>,
}

pub fn bits(numbers: &[f64]) -> Vec<u64> {
    numbers.iter().map(|x| x.to_bits()).collect()
}

impl Cell {
    pub fn tables(&self) -> Tables<'_> {
        Tables {
            measures: self.measures,
            settings: self.settings,
            form: self.form,
            symmetry: self.symmetry,
            mesh: self.mesh,
            matrix: self.matrix,
            addresses: &self.addresses,
            vectors: &self.vectors,
            multiplicity: &self.multiplicity,
            p2s: &self.p2s,
            s2p: &self.s2p,
            masses: &self.masses,
            bands: &self.bands,
            frequencies: &self.frequencies,
            eigenvectors: &self.eigenvectors,
            shortest: &self.shortest,
            nonzero: &self.nonzero,
            constants: &self.constants,
        }
    }

    /// With another content.
    pub fn with(&self, change: impl FnOnce(&mut Cell)) -> Cell {
        let mut cell = self.clone();
        change(&mut cell);
        cell
    }

    /// With the work of one of the functions done on it.
    fn left(
        &self,
        call: impl FnOnce(&mut [f64], &mut [f64], &mut [f64]) -> Result<(), Refusal>,
    ) -> Left {
        let (mut strengths, mut totals, mut work) = (
            self.strengths.clone(),
            self.totals.clone(),
            self.work.clone(),
        );
        let answer = call(&mut strengths, &mut totals, &mut work);
        Left {
            answer,
            strengths: bits(&strengths),
            totals: bits(&totals),
            work: bits(&work),
        }
    }

    /// Refused, and nothing changed.
    pub fn untouched(&self, refusal: Refusal) -> Left {
        self.left(|_, _, _| Err(refusal))
    }

    pub fn one_triplet(&self) -> Left {
        let set = TripletSet {
            tables: self.tables(),
            triplet: self.triplets[0],
            flags: &self.flags,
        };
        self.left(|strengths, _, work| get_interaction_at_triplet(&set, strengths, work))
    }

    pub fn list(&self) -> Left {
        let set = ListSet {
            tables: self.tables(),
            triplets: &self.triplets,
            flags: &self.flags,
        };
        self.left(|strengths, _, work| get_interaction(&set, strengths, work))
    }

    pub fn joined(&self) -> Left {
        let set = JoinedSet {
            tables: self.tables(),
            triplet: self.triplets[0],
            flags: &self.flags,
            bath: self.bath,
            first_weights: &self.first_weights,
            second_weights: &self.second_weights,
        };
        self.left(|strengths, totals, work| joined_at_triplet(&set, strengths, totals, work))
    }

    /// Totals alone, of the strengths that stand in the buffer.
    pub fn totals_alone(&self, weights: Weights) -> Left {
        let Measures {
            atoms, first, grid, ..
        } = self.measures;
        let set = TotalsSet {
            measures: TotalsMeasures { atoms, first, grid },
            weights,
            triplet: self.triplets[0],
            frequencies: &self.frequencies,
            cutoff: self.settings.cutoff,
            flags: &self.flags,
            strengths: &self.strengths,
            bath: self.bath,
            first_weights: &self.first_weights,
            second_weights: &self.second_weights,
        };
        self.left(|_, totals, _| imag_self_energy_at_triplet(&set, totals))
    }
}

/// Cell U. Strengths, totals and work buffer stand at -1.0, and the work buffer has two numbers more than W.
pub fn cell_u() -> Cell {
    let mut constants = vec![0.0; 27];
    constants[5] = 16.0;
    Cell {
        measures: Measures {
            atoms: 1,
            supercell: 1,
            first: 3,
            grid: 1,
            vectors: 1,
        },
        settings: Settings {
            anchoring: Anchoring::Plain,
            cutoff: 0.5,
        },
        form: Form::Compact,
        symmetry: Symmetry::Off,
        mesh: [1; 3],
        matrix: [1, 0, 0, 0, 1, 0, 0, 0, 1],
        addresses: vec![0; 3],
        vectors: vec![0.0; 3],
        multiplicity: vec![1, 0],
        p2s: vec![0],
        s2p: vec![0],
        masses: vec![4.0],
        bands: vec![0, 1, 2],
        frequencies: vec![1.0, 2.0, 4.0],
        eigenvectors: (0..18).map(|n| f64::from(n % 8 == 0)).collect(),
        shortest: vec![0],
        nonzero: vec![1],
        constants,
        triplets: vec![[0; 3]],
        flags: vec![0; 27],
        bath: Bath {
            weight: 3,
            temperature: 0.0,
        },
        first_weights: vec![2.0; 27],
        second_weights: vec![0.0; 27],
        strengths: vec![-1.0; 27],
        totals: vec![-1.0; 3],
        work: vec![-1.0; 205],
    }
}

/// Numbers between -1 and 1 with full mantissas, by a fixed rule.
fn spread(seed: u64, count: usize) -> Vec<f64> {
    let mut state = seed;
    (0..count)
        .map(|_| {
            state = state
                .wrapping_mul(6364136223846793005)
                .wrapping_add(1442695040888963407);
            (state >> 11) as f64 / (1u64 << 52) as f64 - 1.0
        })
        .collect()
}

fn positive(seed: u64, count: usize) -> Vec<f64> {
    spread(seed, count).iter().map(|x| x.abs() + 0.5).collect()
}

/// P = 2, S = 3, F = 4, G = 5, V = 7, full form, averaged, symmetrized; every third slot flagged. Buffers stand at -1.0, and the work
/// buffer has two numbers more than W.
pub fn crystal() -> Cell {
    let measures = Measures {
        atoms: 2,
        supercell: 3,
        first: 4,
        grid: 5,
        vectors: 7,
    };
    let lengths = Lengths::of(&measures, Form::Full);
    Cell {
        measures,
        settings: Settings {
            anchoring: Anchoring::Averaged,
            cutoff: 0.625,
        },
        form: Form::Full,
        symmetry: Symmetry::Symmetrized,
        mesh: [2, 3, 4],
        matrix: [1, 0, -1, 2, 1, 0, 0, -3, 1],
        addresses: vec![0, 0, 0, 1, 2, 3, -1, 0, 2, 1, 1, 1, 0, -2, 3],
        vectors: spread(1, lengths.vectors),
        multiplicity: vec![1, 0, 2, 1, 3, 3, 1, 6, 2, 5, 1, 2],
        p2s: vec![0, 2],
        s2p: vec![0, 0, 2],
        masses: positive(2, lengths.masses),
        bands: vec![5, 0, 3, 3],
        frequencies: positive(3, lengths.frequencies),
        eigenvectors: spread(4, lengths.eigenvectors),
        shortest: (0..lengths.shortest).map(|n| (n % 4 == 1).into()).collect(),
        nonzero: (0..lengths.nonzero).map(|n| (n % 5 != 2).into()).collect(),
        constants: spread(5, lengths.constants),
        triplets: vec![[1, 2, 3], [0, 4, 2]],
        flags: (0..lengths.slots).map(|n| (n % 3 == 0).into()).collect(),
        bath: Bath {
            weight: 2,
            temperature: 1.75,
        },
        first_weights: positive(6, lengths.slots),
        second_weights: spread(7, lengths.slots),
        strengths: vec![-1.0; lengths.slots],
        totals: vec![-1.0; lengths.totals],
        work: vec![-1.0; lengths.work + 2],
    }
}

/// The same for a list of its two triplets.
pub fn crystal_list() -> Cell {
    crystal().with(|cell| {
        let slots = cell.flags.len();
        cell.flags = (0..2 * slots).map(|n| (n % 5 == 0).into()).collect();
        cell.strengths = vec![-1.0; 2 * slots];
    })
}

/// The crystal in each of its settings.
pub fn crystals() -> Vec<Cell> {
    let mut cells = Vec::new();
    for form in [Form::Compact, Form::Full] {
        for anchoring in [Anchoring::Plain, Anchoring::Averaged] {
            for symmetry in [Symmetry::Off, Symmetry::Symmetrized] {
                for temperature in [0.0, 1.75] {
                    cells.push(crystal().with(|c| {
                        let lengths = Lengths::of(&c.measures, form);
                        c.form = form;
                        c.nonzero.truncate(lengths.nonzero);
                        c.constants.truncate(lengths.constants);
                        c.settings.anchoring = anchoring;
                        c.symmetry = symmetry;
                        c.bath.temperature = temperature;
                    }));
                }
            }
        }
    }
    cells
}

/// What the oracle leaves of the crystals, by its digest; a test of `tools/rust/differential` makes it again.
pub const ORACLE_DIGEST: u64 = 0xdb59_cc90_d6cf_1dad;

/// FNV-1a of strengths and totals that the joined function leaves, cell by cell, little-endian.
pub fn digest(cells: &[Cell]) -> u64 {
    let lefts = cells.iter().map(Cell::joined);
    let numbers = lefts.flat_map(|left| [left.strengths, left.totals].concat());
    fnv1a(numbers.flat_map(u64::to_le_bytes))
}

/// FNV-1a, 64 bits.
pub fn fnv1a(bytes: impl Iterator<Item = u8>) -> u64 {
    bytes.fold(0xcbf2_9ce4_8422_2325, |state: u64, byte| {
        (state ^ u64::from(byte)).wrapping_mul(0x0000_0100_0000_01b3)
    })
}
