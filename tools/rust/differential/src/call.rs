//! One call of a door: everything that is handed in, and what the lent buffers hold before.

use oracle::sets::*;

#[derive(Clone, Copy, Debug, PartialEq, Eq)]
pub enum Door {
    Triplet,
    List,
    Totals,
    Joined,
    Weights,
}

impl Door {
    pub const ALL: [Door; 5] = [
        Door::Triplet,
        Door::List,
        Door::Totals,
        Door::Joined,
        Door::Weights,
    ];

    pub fn name(self) -> &'static str {
        match self {
            Door::Triplet => "triplet",
            Door::List => "list",
            Door::Totals => "totals",
            Door::Joined => "joined",
            Door::Weights => "weights",
        }
    }

    pub fn named(name: &str) -> Option<Door> {
        Door::ALL.into_iter().find(|door| door.name() == name)
    }

    /// The refusals that documents 01 and 02 give this door.
    pub fn numbers(self) -> &'static [u8] {
        match self {
            Door::Triplet | Door::List => &[1, 2, 3, 4, 5, 6, 7, 9],
            Door::Totals => &[1, 2, 3, 4, 7, 8],
            Door::Joined => &[1, 2, 3, 4, 5, 6, 7, 8, 9],
            Door::Weights => &[1, 2, 3, 4, 13],
        }
    }

    pub fn has_strengths_tables(self) -> bool {
        matches!(self, Door::Triplet | Door::List | Door::Joined)
    }

    pub fn has_bands(self) -> bool {
        self != Door::Totals
    }

    /// Whether flags are read.
    pub fn has_flags(self) -> bool {
        self != Door::Weights
    }

    pub fn has_bath(self) -> bool {
        matches!(self, Door::Totals | Door::Joined)
    }

    pub fn has_totals(self) -> bool {
        self.has_bath()
    }
}

#[derive(Clone, Copy, Debug, PartialEq, Eq)]
pub enum Kind {
    Usual,
    Coarse,
    Wide,
    Huge,
    Tiny,
    Idle,
    Far,
    Limits,
    Edge,
    /// Of the weights alone.
    Touching,
    OneFault,
    TwoFaults,
    Foreign,
}

impl Kind {
    pub const ALL: [Kind; 13] = [
        Kind::Usual,
        Kind::Coarse,
        Kind::Wide,
        Kind::Huge,
        Kind::Tiny,
        Kind::Idle,
        Kind::Far,
        Kind::Limits,
        Kind::Edge,
        Kind::Touching,
        Kind::OneFault,
        Kind::TwoFaults,
        Kind::Foreign,
    ];

    pub fn name(self) -> &'static str {
        match self {
            Kind::Usual => "usual numbers",
            Kind::Coarse => "zeros and equal numbers",
            Kind::Wide => "any exponents",
            Kind::Huge => "overflow inside",
            Kind::Tiny => "underflow inside",
            Kind::Idle => "nothing to work",
            Kind::Far => "phases near the ends",
            Kind::Limits => "measures at their limits",
            Kind::Edge => "phases at the ends",
            Kind::Touching => "a slot at the shape's edge",
            Kind::OneFault => "one fault",
            Kind::TwoFaults => "two faults",
            Kind::Foreign => "choice unknown",
        }
    }
}

/// What stands at its limit in a set, where something does.
#[derive(Clone, Copy, Debug, PartialEq, Eq)]
pub enum Limit {
    Atoms,
    First,
    Grid,
    Supercell,
    /// 65,536 of them, all named by one entry of the multiplicity.
    Vectors,
    List,
    /// P = 8, S = 64, F = 24, compact.
    LargestCell,
    /// S = 64 with force constants in full.
    LargestFull,
    /// G and the number of vectors at once.
    GridAndVectors,
    /// P = 8, F = 24 and G = 65,536, in totals alone and in the weights.
    LargestGrid,
    /// Vectors that are subnormal or nearly so.
    LeastVectors,
}

impl Limit {
    pub const ALL: [Limit; 11] = [
        Limit::Atoms,
        Limit::First,
        Limit::Grid,
        Limit::Supercell,
        Limit::Vectors,
        Limit::List,
        Limit::LargestCell,
        Limit::LargestFull,
        Limit::GridAndVectors,
        Limit::LargestGrid,
        Limit::LeastVectors,
    ];

    pub fn name(self) -> &'static str {
        match self {
            Limit::Atoms => "P = 8",
            Limit::First => "F = B",
            Limit::Grid => "G = 65,536",
            Limit::Supercell => "S = 64",
            Limit::Vectors => "65,536 vectors, one entry",
            Limit::List => "list of 4,096",
            Limit::LargestCell => "P = 8, S = 64, F = 24",
            Limit::LargestFull => "S = 64, full form",
            Limit::GridAndVectors => "G and vectors 65,536",
            Limit::LargestGrid => "P = 8, F = 24, G = 65,536",
            Limit::LeastVectors => "subnormal vectors",
        }
    }
}

/// What only a caller through C can hand in: a number that names no choice.
#[derive(Clone, Copy, Debug, PartialEq)]
pub enum Foreign {
    Anchoring(u8),
    Form(u8),
    Symmetry(u8),
    Weighting(u8),
    Shape(u8),
}

/// Buffers lent for writing; a door that is lent none of a kind has an empty one.
#[derive(Clone, Debug, Default)]
pub struct Buffers {
    pub strengths: Vec<f64>,
    pub totals: Vec<f64>,
    pub work: Vec<f64>,
    pub first_weights: Vec<f64>,
    pub second_weights: Vec<f64>,
    pub flags: Vec<u8>,
}

/// Tables that a door is not handed are empty. Totals alone takes P, F, G, the cutoff, frequencies, flags, triplet,
/// bath and weights from `set`, and the weights of a shape P, F, G, bands, frequencies and triplet.
#[derive(Clone, Debug)]
pub struct Call {
    pub door: Door,
    pub kind: Kind,
    pub limit: Option<Limit>,
    /// Number and place of each planted fault.
    pub planted: Vec<(u8, String)>,
    pub set: JoinedSet,
    pub list: u64,
    pub triplets: Vec<i64>,
    pub weighting: Weighting,
    /// Strengths as totals alone reads them.
    pub read_strengths: Vec<f64>,
    /// The shape whose weights are asked for.
    pub shape: Shape,
    pub foreign: Option<Foreign>,
    pub before: Buffers,
}

impl Call {
    fn totals_measures(&self) -> TotalsMeasures {
        let m = &self.set.strengths.measures;
        TotalsMeasures {
            atoms: m.atoms,
            first: m.first,
            grid: m.grid,
        }
    }

    pub fn totals_set(&self) -> TotalsSet {
        let tables = &self.set.strengths;
        TotalsSet {
            measures: self.totals_measures(),
            cutoff: tables.settings.cutoff,
            weighting: self.weighting,
            bath: self.set.bath,
            triplet: self.set.triplet,
            frequencies: tables.frequencies.clone(),
            strengths: self.read_strengths.clone(),
            flags: tables.flags.clone(),
            first_weights: self.set.first_weights.clone(),
            second_weights: self.set.second_weights.clone(),
        }
    }

    pub fn weights_set(&self) -> WeightsSet {
        let tables = &self.set.strengths;
        WeightsSet {
            measures: self.totals_measures(),
            shape: self.shape,
            triplet: self.set.triplet,
            bands: tables.bands.clone(),
            frequencies: tables.frequencies.clone(),
        }
    }

    /// The triplets that the door works.
    pub fn worked_triplets(&self) -> Vec<[i64; 3]> {
        match self.door {
            Door::List => self
                .triplets
                .chunks_exact(3)
                .map(|row| [row[0], row[1], row[2]])
                .collect(),
            _ => vec![self.set.triplet],
        }
    }

    fn integer_tables(&self) -> [(&'static str, &[i64]); 9] {
        let t = &self.set.strengths;
        [
            ("mesh", &t.mesh),
            ("q matrix", &t.q_matrix),
            ("triplet", &self.set.triplet),
            ("triplets", &self.triplets),
            ("addresses", &t.addresses),
            ("multiplicity", &t.multiplicity),
            ("p2s", &t.p2s),
            ("s2p", &t.s2p),
            ("bands", &t.bands),
        ]
    }

    fn number_tables(&self) -> [(&'static str, &[f64]); 8] {
        let t = &self.set.strengths;
        [
            ("vectors", &t.vectors),
            ("masses", &t.masses),
            ("frequencies", &t.frequencies),
            ("eigenvectors", &t.eigenvectors),
            ("force constants", &t.force_constants),
            ("first weights", &self.set.first_weights),
            ("second weights", &self.set.second_weights),
            ("strengths read", &self.read_strengths),
        ]
    }

    fn byte_tables(&self) -> [(&'static str, &[u8]); 3] {
        let t = &self.set.strengths;
        [
            ("all-shortest", &t.all_shortest),
            ("nonzero", &t.nonzero),
            ("flags", &t.flags),
        ]
    }

    /// The first table lent for reading that differs, if one was written.
    pub fn changed_table(&self, after: &Call) -> Option<&'static str> {
        let integers = self
            .integer_tables()
            .into_iter()
            .zip(after.integer_tables());
        let numbers = self.number_tables().into_iter().zip(after.number_tables());
        let bytes = self.byte_tables().into_iter().zip(after.byte_tables());
        let same_bits = |a: &[f64], b: &[f64]| {
            a.len() == b.len() && a.iter().zip(b).all(|(x, y)| x.to_bits() == y.to_bits())
        };
        integers
            .filter(|(a, b)| a.1 != b.1)
            .map(|(a, _)| a.0)
            .chain(
                numbers
                    .filter(|(a, b)| !same_bits(a.1, b.1))
                    .map(|(a, _)| a.0),
            )
            .chain(bytes.filter(|(a, b)| a.1 != b.1).map(|(a, _)| a.0))
            .next()
    }
}
