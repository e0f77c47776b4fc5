//! What the doors are handed, as owned tables of any length, and the lengths that documents 01 and 02 ask of them.
//! B = 3·P bands; slot (b, j, k) is number (b·B + j)·B + k.

/// P, S, F, G and the number of vectors.
#[derive(Clone, Copy, Debug, PartialEq)]
pub struct Measures {
    pub atoms: u64,
    pub supercell: u64,
    pub first: u64,
    pub grid: u64,
    pub vectors: u64,
}

/// P, F and G, all that totals alone and the weights of a shape are handed.
#[derive(Clone, Copy, Debug, PartialEq)]
pub struct TotalsMeasures {
    pub atoms: u64,
    pub first: u64,
    pub grid: u64,
}

#[derive(Clone, Copy, Debug, PartialEq)]
pub enum Anchoring {
    Plain,
    Averaged,
}

#[derive(Clone, Copy, Debug, PartialEq)]
pub struct Settings {
    pub anchoring: Anchoring,
    pub cutoff: f64,
}

/// Rows of the force constants: one for each atom of the primitive cell, or of the supercell.
#[derive(Clone, Copy, Debug, PartialEq)]
pub enum Form {
    Compact,
    Full,
}

#[derive(Clone, Copy, Debug, PartialEq)]
pub enum Symmetry {
    Off,
    Symmetrized,
}

/// Flags and weights of totals alone: one entry a slot, or B·B entries shared by all first bands.
#[derive(Clone, Copy, Debug, PartialEq)]
pub enum Weighting {
    PerSlot,
    AtFrequencyPoint,
}

#[derive(Clone, Copy, Debug, PartialEq)]
pub struct Bath {
    pub weight: i64,
    pub temperature: f64,
}

/// What stands for the delta function of energy conservation: a Gaussian of a width, a Lorentzian or a box of a half-width.
#[derive(Clone, Copy, Debug, PartialEq)]
pub enum Shape {
    Gaussian(f64),
    Lorentzian(f64),
    Box(f64),
}

impl Shape {
    pub fn width(self) -> f64 {
        match self {
            Shape::Gaussian(w) | Shape::Lorentzian(w) | Shape::Box(w) => w,
        }
    }
}

/// What the one-triplet, list and joined doors read, but for the triplets and the weights.
#[derive(Clone, Debug)]
pub struct StrengthsSet {
    pub measures: Measures,
    pub settings: Settings,
    pub form: Form,
    pub symmetry: Symmetry,
    pub mesh: [i64; 3],
    /// By rows.
    pub q_matrix: [i64; 9],
    /// Three for each grid point.
    pub addresses: Vec<i64>,
    /// Three for each shortest vector.
    pub vectors: Vec<f64>,
    /// (count, start) of supercell atom j and atom i, entry j·P + i.
    pub multiplicity: Vec<i64>,
    pub p2s: Vec<i64>,
    pub s2p: Vec<i64>,
    pub masses: Vec<f64>,
    pub bands: Vec<i64>,
    /// Grid point, band.
    pub frequencies: Vec<f64>,
    /// Grid point, component, band, then real and imaginary part.
    pub eigenvectors: Vec<f64>,
    /// Atom, j, k of the supercell.
    pub all_shortest: Vec<u8>,
    /// Row, j, k of the supercell.
    pub nonzero: Vec<u8>,
    /// Slots; in a list, those of each triplet in turn.
    pub flags: Vec<u8>,
    /// Row, j, k of the supercell, then l·9 + m·3 + n.
    pub force_constants: Vec<f64>,
}

/// What totals alone reads.
#[derive(Clone, Debug)]
pub struct TotalsSet {
    pub measures: TotalsMeasures,
    pub cutoff: f64,
    pub weighting: Weighting,
    pub bath: Bath,
    pub triplet: [i64; 3],
    pub frequencies: Vec<f64>,
    pub strengths: Vec<f64>,
    pub flags: Vec<u8>,
    pub first_weights: Vec<f64>,
    pub second_weights: Vec<f64>,
}

/// What the weights of a shape are worked from.
#[derive(Clone, Debug)]
pub struct WeightsSet {
    pub measures: TotalsMeasures,
    pub shape: Shape,
    pub triplet: [i64; 3],
    pub bands: Vec<i64>,
    pub frequencies: Vec<f64>,
}

/// What the joined door reads, and a carton holds.
#[derive(Clone, Debug)]
pub struct JoinedSet {
    pub strengths: StrengthsSet,
    pub triplet: [i64; 3],
    pub bath: Bath,
    pub first_weights: Vec<f64>,
    pub second_weights: Vec<f64>,
}

/// Product of true integers, or u128::MAX if it is greater. A factor 0 gives 0 in any place, so no later product
/// or sum of such values comes round to a small one.
fn product(factors: &[u128]) -> u128 {
    if factors.contains(&0) {
        return 0;
    }
    factors
        .iter()
        .fold(1, |all, &factor| all.saturating_mul(factor))
}

/// Sum of true integers, or u128::MAX if it is greater.
pub fn sum(terms: &[u128]) -> u128 {
    terms.iter().fold(0, |all, &term| all.saturating_add(term))
}

/// B = 3·P.
pub fn band_count(atoms: u64) -> u128 {
    3 * u128::from(atoms)
}

/// F·B·B.
pub fn slot_count(atoms: u64, first: u64) -> u128 {
    let b = band_count(atoms);
    product(&[first.into(), b, b])
}

/// B·B.
pub fn pair_count(atoms: u64) -> u128 {
    let b = band_count(atoms);
    product(&[b, b])
}

/// G·B.
pub fn frequency_count(atoms: u64, grid: u64) -> u128 {
    product(&[grid.into(), band_count(atoms)])
}

/// W = 135·P³ + 54·P² + 6·P·S + 8·P.
pub fn work_size(measures: &Measures) -> u128 {
    let p = u128::from(measures.atoms);
    let s = u128::from(measures.supercell);
    sum(&[
        product(&[135, p, p, p]),
        product(&[54, p, p]),
        product(&[6, p, s]),
        product(&[8, p]),
    ])
}

/// Length of each table of one triplet.
#[derive(Clone, Copy, Debug)]
pub struct Lengths {
    pub addresses: u128,
    pub vectors: u128,
    pub multiplicity: u128,
    pub p2s: u128,
    pub s2p: u128,
    pub masses: u128,
    pub bands: u128,
    pub frequencies: u128,
    pub eigenvectors: u128,
    pub all_shortest: u128,
    pub nonzero: u128,
    /// Flags, strengths, first weights and second weights.
    pub slots: u128,
    pub force_constants: u128,
}

impl Lengths {
    pub fn of(measures: &Measures, form: Form) -> Lengths {
        let p = u128::from(measures.atoms);
        let s = u128::from(measures.supercell);
        let g = u128::from(measures.grid);
        let b = band_count(measures.atoms);
        let rows = match form {
            Form::Compact => p,
            Form::Full => s,
        };
        Lengths {
            addresses: 3 * g,
            vectors: 3 * u128::from(measures.vectors),
            multiplicity: product(&[2, s, p]),
            p2s: p,
            s2p: s,
            masses: p,
            bands: measures.first.into(),
            frequencies: frequency_count(measures.atoms, measures.grid),
            eigenvectors: product(&[2, g, b, b]),
            all_shortest: product(&[p, s, s]),
            nonzero: product(&[rows, s, s]),
            slots: slot_count(measures.atoms, measures.first),
            force_constants: product(&[27, rows, s, s]),
        }
    }
}
