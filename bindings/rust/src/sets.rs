//! What the functions are handed for reading.
//!
//! P atoms in the primitive cell, S in the supercell, F first bands wanted, G grid points, V shortest vectors; B = 3·P bands; R = P
//! rows of force constants if the form is compact, S if it is full. Slot (b, j, k) is position b of the bands table at the
//! triplet's first grid point, band j at its second and band k at its third; its number is (b·B + j)·B + k.

/// P, S, F, G and V.
#[derive(Clone, Copy, Debug, PartialEq, Eq)]
pub struct Measures {
    /// P, atoms of the primitive cell: 1 to 8.
    pub atoms: usize,
    /// S, atoms of the supercell: 1 to 64.
    pub supercell: usize,
    /// F, first bands wanted, a repeated band counting again: 1 to 3·P.
    pub first: usize,
    /// G, grid points: 1 to 65,536.
    pub grid: usize,
    /// V, shortest vectors: 1 to 65,536.
    pub vectors: usize,
}

/// P, F and G, the measures of totals alone and of weights from a shape.
#[derive(Clone, Copy, Debug, PartialEq, Eq)]
pub struct TotalsMeasures {
    /// P, atoms of the primitive cell: 1 to 8.
    pub atoms: usize,
    /// F, first bands: 1 to 3·P.
    pub first: usize,
    /// G, grid points: 1 to 65,536.
    pub grid: usize,
}

/// Where the force constants of three atoms are anchored.
#[derive(Clone, Copy, Debug, PartialEq, Eq)]
#[repr(u8)]
pub enum Anchoring {
    /// At the first of them.
    Plain = 0,
    /// At each in turn, and averaged.
    Averaged = 1,
}

/// Which rows the force constants have.
#[derive(Clone, Copy, Debug, PartialEq, Eq)]
#[repr(u8)]
pub enum Form {
    /// One for each atom of the primitive cell: R = P.
    Compact = 0,
    /// One for each atom of the supercell: R = S.
    Full = 1,
}

/// In which order the legs are taken.
#[derive(Clone, Copy, Debug, PartialEq, Eq)]
#[repr(u8)]
pub enum Symmetry {
    /// In their own. Flagged slots stay as they are.
    Off = 0,
    /// In all six, and the strengths are their mean. Flagged slots become 0.0.
    Symmetrized = 1,
}

/// How many entries flags and weights of totals alone have.
#[derive(Clone, Copy, Debug, PartialEq, Eq)]
#[repr(u8)]
pub enum Weights {
    /// One for each slot: F·B·B.
    PerSlot = 0,
    /// One for each pair of later bands, for all first bands alike: B·B, entry j·B + k.
    AtFrequencyPoint = 1,
}

/// What stands for the delta function of energy conservation, with its width in the unit of the frequencies. Finite, and above zero. At a
/// distance d, each operation rounded once, a shape of width w is:
#[derive(Clone, Copy, Debug, PartialEq)]
pub enum Shape {
    /// Of a width: 0.0 if |d| > 8·w, else (1 / exp((t·t) / 2))·(c / w) with t = d / w, c the f64 nearest 1/√(2π) and `exp` that of
    /// `crates/phonon/specs/Exp.antt`.
    Gaussian(f64),
    /// Of a half-width: (w / (d·d + w·w))·c, c the f64 nearest 1/π.
    Lorentzian(f64),
    /// Of a half-width: 1 / (2·w) if |d| ≤ w, else 0.0.
    Box(f64),
}

impl Shape {
    /// The number that the library takes for it.
    pub const fn number(self) -> u8 {
        match self {
            Shape::Gaussian(_) => 0,
            Shape::Lorentzian(_) => 1,
            Shape::Box(_) => 2,
        }
    }

    /// Its width, or half-width.
    pub const fn width(self) -> f64 {
        match self {
            Shape::Gaussian(width) | Shape::Lorentzian(width) | Shape::Box(width) => width,
        }
    }
}

/// The anchoring and the cutoff.
#[derive(Clone, Copy, Debug, PartialEq)]
pub struct Settings {
    /// Where the force constants are anchored.
    pub anchoring: Anchoring,
    /// Frequencies at or below it are cut off. Finite, and not below zero.
    pub cutoff: f64,
}

/// The triplet's weight and the temperature.
#[derive(Clone, Copy, Debug, PartialEq)]
pub struct Bath {
    /// 1 to 2,147,483,647.
    pub weight: i64,
    /// In the unit of the frequencies. Finite, its sign bit not set; 0.0 is allowed.
    pub temperature: f64,
}

/// What every function that works strengths reads, beside triplets, flags and weights. Every f64 must be finite.
#[derive(Clone, Copy, Debug, PartialEq)]
pub struct Tables<'a> {
    /// P, S, F, G and V.
    pub measures: Measures,
    /// The anchoring and the cutoff.
    pub settings: Settings,
    /// Which rows the force constants have.
    pub form: Form,
    /// In which order the legs are taken.
    pub symmetry: Symmetry,
    /// Divisions of the mesh in each direction: 1 to 4,096.
    pub mesh: [i64; 3],
    /// The q matrix by rows, entry 3·k + d: within ±4,096. Component k of q at grid point g is the sum over d of
    /// matrix\[3·k + d\]·(addresses\[3·g + d\] / mesh\[d\]).
    pub matrix: [i64; 9],
    /// Address of grid point g in direction d, entry 3·g + d: within ±1,048,576. Length 3·G.
    pub addresses: &'a [i64],
    /// Shortest vector v in direction d, entry 3·v + d. Length 3·V.
    pub vectors: &'a [f64],
    /// Of supercell atom j and atom i: how many vectors lead from i to j, entry 2·(j·P + i), at least 1; and the number of the
    /// first of them, the entry behind it. Both together at most V. Length 2·S·P.
    pub multiplicity: &'a [i64],
    /// Atom i as an atom of the supercell, 0 to S − 1. Length P.
    pub p2s: &'a [i64],
    /// The supercell atom that supercell atom j is an image of, 0 to S − 1. Length S.
    pub s2p: &'a [i64],
    /// Mass of atom i, above zero. Length P.
    pub masses: &'a [f64],
    /// The first band at position b, 0 to B − 1. Length F.
    pub bands: &'a [i64],
    /// Frequency of band n at grid point g, entry g·B + n. Length G·B.
    pub frequencies: &'a [f64],
    /// Component m (3·atom + direction) of band n at grid point g: real part at 2·((g·B + m)·B + n), imaginary part behind it. Length
    /// 2·G·B·B.
    pub eigenvectors: &'a [f64],
    /// Set (not 0) if atom i and supercell atoms j and k are all shortest, entry (i·S + j)·S + k. Length P·S·S.
    pub shortest: &'a [u8],
    /// 0 if row r has no force constants for supercell atoms j and k, entry (r·S + j)·S + k. Length R·S·S.
    pub nonzero: &'a [u8],
    /// Force constant (l, m, n) of row r and supercell atoms j and k, entry ((r·S + j)·S + k)·27 + 9·l + 3·m + n. Length 27·R·S·S.
    pub constants: &'a [f64],
}

/// One triplet.
#[derive(Clone, Copy, Debug, PartialEq)]
pub struct TripletSet<'a> {
    /// The tables.
    pub tables: Tables<'a>,
    /// Grid point of each leg, 0 to G − 1.
    pub triplet: [i64; 3],
    /// Set (not 0) if the slot is left out. Length F·B·B.
    pub flags: &'a [u8],
}

/// A list of 1 to 4,096 triplets.
#[derive(Clone, Copy, Debug, PartialEq)]
pub struct ListSet<'a> {
    /// The tables.
    pub tables: Tables<'a>,
    /// Grid point of each leg of each triplet, 0 to G − 1.
    pub triplets: &'a [[i64; 3]],
    /// Set (not 0) if the slot is left out; those of triplet t begin at t·F·B·B. Length F·B·B for each triplet.
    pub flags: &'a [u8],
}

/// Totals alone. Every f64 must be finite.
#[derive(Clone, Copy, Debug, PartialEq)]
pub struct TotalsSet<'a> {
    /// P, F and G.
    pub measures: TotalsMeasures,
    /// How many entries flags and weights have.
    pub weights: Weights,
    /// Grid point of each leg, 0 to G − 1.
    pub triplet: [i64; 3],
    /// Frequency of band n at grid point g, entry g·B + n. Length G·B.
    pub frequencies: &'a [f64],
    /// Frequencies at or below it are cut off. Not below zero.
    pub cutoff: f64,
    /// Set (not 0) if the slot is left out. Length F·B·B, or B·B at a frequency point.
    pub flags: &'a [u8],
    /// Strength of each slot. Length F·B·B.
    pub strengths: &'a [f64],
    /// The triplet's weight and the temperature.
    pub bath: Bath,
    /// g1 of each slot. Length as for the flags.
    pub first_weights: &'a [f64],
    /// g2 − g3 of each slot. Length as for the flags.
    pub second_weights: &'a [f64],
}

/// One triplet and its totals joined.
#[derive(Clone, Copy, Debug, PartialEq)]
pub struct JoinedSet<'a> {
    /// The tables.
    pub tables: Tables<'a>,
    /// Grid point of each leg, 0 to G − 1.
    pub triplet: [i64; 3],
    /// Set (not 0) if the slot is left out. Length F·B·B.
    pub flags: &'a [u8],
    /// The triplet's weight and the temperature.
    pub bath: Bath,
    /// g1 of each slot, finite. Length F·B·B.
    pub first_weights: &'a [f64],
    /// g2 − g3 of each slot, finite. Length F·B·B.
    pub second_weights: &'a [f64],
}

/// Weights from a shape. Every frequency must be finite.
#[derive(Clone, Copy, Debug, PartialEq)]
pub struct WeightsSet<'a> {
    /// P, F and G.
    pub measures: TotalsMeasures,
    /// The shape with its width.
    pub shape: Shape,
    /// Grid point of each leg, 0 to G − 1.
    pub triplet: [i64; 3],
    /// The first band at position b, 0 to B − 1. Length F.
    pub bands: &'a [i64],
    /// Frequency of band n at grid point g, entry g·B + n. Length G·B.
    pub frequencies: &'a [f64],
}
