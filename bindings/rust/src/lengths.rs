//! Lengths of the slices. Each is exact if it fits into a usize, and usize::MAX otherwise; measures within their limits always fit.

use crate::sets::{Form, Measures};

/// B = 3·P, of P atoms.
pub const fn bands(atoms: usize) -> usize {
    atoms.saturating_mul(3)
}

/// B·B: the entries of flags and weights at a frequency point.
pub const fn pairs(atoms: usize) -> usize {
    bands(atoms).saturating_mul(bands(atoms))
}

/// F·B·B: the slots of one triplet.
pub const fn slots(atoms: usize, first: usize) -> usize {
    first.saturating_mul(pairs(atoms))
}

/// F·B·B for each triplet: the slots of a list.
///
/// ```
/// assert_eq!(wirambolo::list_slots(2, 6, 10), 10 * 6 * 6 * 6);
/// ```
pub const fn list_slots(atoms: usize, first: usize, list: usize) -> usize {
    list.saturating_mul(slots(atoms, first))
}

/// (b·B + j)·B + k: the number of slot (b, j, k).
///
/// ```
/// assert_eq!(wirambolo::slot(1, 0, 1, 2), 5);
/// ```
pub const fn slot(atoms: usize, b: usize, j: usize, k: usize) -> usize {
    b.saturating_mul(bands(atoms))
        .saturating_add(j)
        .saturating_mul(bands(atoms))
        .saturating_add(k)
}

/// W = 135·P³ + 54·P² + 6·P·S + 8·P: the least length of the work buffer.
///
/// ```
/// assert_eq!(wirambolo::work_length(1, 1), 203);
/// ```
pub const fn work_length(atoms: usize, supercell: usize) -> usize {
    let square = atoms.saturating_mul(atoms);
    square
        .saturating_mul(atoms)
        .saturating_mul(135)
        .saturating_add(square.saturating_mul(54))
        .saturating_add(atoms.saturating_mul(supercell).saturating_mul(6))
        .saturating_add(atoms.saturating_mul(8))
}

/// The length of each slice that the measures fix, for one triplet.
#[derive(Clone, Copy, Debug, PartialEq, Eq)]
pub struct Lengths {
    /// 3·G
    pub addresses: usize,
    /// 3·V
    pub vectors: usize,
    /// 2·S·P
    pub multiplicity: usize,
    /// P
    pub p2s: usize,
    /// S
    pub s2p: usize,
    /// P
    pub masses: usize,
    /// F
    pub bands: usize,
    /// G·B
    pub frequencies: usize,
    /// 2·G·B·B
    pub eigenvectors: usize,
    /// P·S·S
    pub shortest: usize,
    /// R·S·S
    pub nonzero: usize,
    /// 27·R·S·S
    pub constants: usize,
    /// F·B·B: flags, strengths, first and second weights
    pub slots: usize,
    /// F
    pub totals: usize,
    /// W, at least
    pub work: usize,
}

impl Lengths {
    /// The lengths for these measures and this form of the force constants.
    ///
    /// ```
    /// use wirambolo::{Form, Lengths, Measures};
    ///
    /// let measures = Measures { atoms: 2, supercell: 16, first: 6, grid: 27, vectors: 64 };
    /// let lengths = Lengths::of(&measures, Form::Compact);
    /// assert_eq!(lengths.eigenvectors, 2 * 27 * 6 * 6);
    /// let mut strengths = vec![0.0; lengths.slots];
    /// let mut work = vec![0.0; lengths.work];
    /// # strengths[0] = 1.0;
    /// # work[0] = 1.0;
    /// ```
    pub const fn of(measures: &Measures, form: Form) -> Lengths {
        let Measures {
            atoms,
            supercell,
            first,
            grid,
            vectors,
        } = *measures;
        let square = supercell.saturating_mul(supercell);
        let rows = match form {
            Form::Compact => atoms,
            Form::Full => supercell,
        };
        Lengths {
            addresses: grid.saturating_mul(3),
            vectors: vectors.saturating_mul(3),
            multiplicity: supercell.saturating_mul(atoms).saturating_mul(2),
            p2s: atoms,
            s2p: supercell,
            masses: atoms,
            bands: first,
            frequencies: grid.saturating_mul(bands(atoms)),
            eigenvectors: grid.saturating_mul(pairs(atoms)).saturating_mul(2),
            shortest: atoms.saturating_mul(square),
            nonzero: rows.saturating_mul(square),
            constants: rows.saturating_mul(square).saturating_mul(27),
            slots: slots(atoms, first),
            totals: first,
            work: work_length(atoms, supercell),
        }
    }
}
