//! Random tables of a set within the limits: measures, indices, flags and numbers.

use crate::call::{Buffers, Call, Door, Kind, Limit};
use crate::numbers::{self, any_table, Style};
use crate::random::Random;
use oracle::sets::*;

/// Measures, list length and choices, before any table is made.
pub struct Outline {
    pub limit: Option<Limit>,
    pub measures: Measures,
    pub list: u64,
    pub form: Form,
    pub anchoring: Anchoring,
    pub symmetry: Symmetry,
    pub weighting: Weighting,
}

const ATOMS: [usize; 8] = [34, 28, 16, 8, 5, 3, 2, 4];
/// Rough work of one set, in visited pairs of supercell atoms; few sets may have more.
const WORK: u64 = 2_000_000;
/// Rough number of force constants; few sets may have more.
const CONSTANTS: u64 = 300_000;

impl Outline {
    /// Mostly small, with every measure up to its limit now and then.
    pub fn random(random: &mut Random, door: Door) -> Outline {
        let atoms = 1 + random.weighted(&ATOMS) as u64;
        let mut outline = Outline {
            limit: None,
            measures: Measures {
                atoms,
                supercell: supercell(random, atoms),
                first: first(random, atoms),
                grid: count(random, 6, 40),
                vectors: count(random, 9, 90),
            },
            list: list(random, door, atoms),
            form: if random.chance(3) {
                Form::Full
            } else {
                Form::Compact
            },
            anchoring: if random.chance(2) {
                Anchoring::Averaged
            } else {
                Anchoring::Plain
            },
            symmetry: symmetry(random, atoms),
            weighting: if door == Door::Totals && random.chance(2) {
                Weighting::AtFrequencyPoint
            } else {
                Weighting::PerSlot
            },
        };
        outline.shrink(random);
        outline
    }

    /// Halves the supercell until the set is cheap; one in sixty stays as it is.
    fn shrink(&mut self, random: &mut Random) {
        if random.chance(60) {
            return;
        }
        while self.measures.supercell > 1 && (self.work() > WORK || self.constants() > CONSTANTS) {
            self.measures.supercell /= 2;
        }
    }

    fn work(&self) -> u64 {
        let m = &self.measures;
        let legs = if self.anchoring == Anchoring::Averaged {
            3
        } else {
            1
        };
        let orders = if self.symmetry == Symmetry::Symmetrized {
            6
        } else {
            1
        };
        m.atoms.pow(3) * m.supercell.pow(2) * legs * orders * self.list
    }

    fn constants(&self) -> u64 {
        let rows = if self.form == Form::Full {
            self.measures.supercell
        } else {
            self.measures.atoms
        };
        27 * rows * self.measures.supercell.pow(2)
    }

    /// One measure at its limit, or several, the others small enough for them.
    pub fn at_a_limit(random: &mut Random, door: Door) -> Outline {
        let mut outline = Outline::random(random, door);
        let (limits, weights) = limits(door);
        let limit = limits[random.weighted(weights)];
        outline.limit = Some(limit);
        let m = &mut outline.measures;
        match limit {
            Limit::Atoms => {
                *m = Measures {
                    atoms: 8,
                    supercell: m.supercell.min(8),
                    first: first(random, 8),
                    ..*m
                };
                outline.list = outline.list.min(2);
                outline.symmetry = symmetry(random, 8);
            }
            Limit::First => m.first = 3 * m.atoms,
            Limit::Grid => {
                outline.small_cell(1, 3);
                outline.measures.grid = 65_536;
            }
            Limit::Supercell | Limit::LargestFull => {
                m.supercell = 64;
                m.atoms = m.atoms.min(2);
                m.first = m.first.min(3 * m.atoms);
                outline.form = match limit {
                    Limit::LargestFull => Form::Full,
                    _ => Form::Compact,
                };
                outline.list = 1;
            }
            Limit::Vectors => {
                outline.small_cell(1, random.pick(&[1, 1, 2]));
                outline.measures.vectors = 65_536;
                outline.list = 1;
                outline.symmetry = symmetry(random, 8);
            }
            Limit::List => {
                outline.small_cell(1, 2);
                outline.symmetry = symmetry(random, 4);
                outline.list = 4_096;
            }
            Limit::LargestCell => {
                *m = Measures {
                    atoms: 8,
                    supercell: 64,
                    first: 24,
                    ..*m
                };
                outline.form = Form::Compact;
                outline.symmetry = symmetry(random, 1);
                outline.list = 1;
            }
            Limit::GridAndVectors => {
                outline.small_cell(random.pick(&[1, 1, 1, 2]), 3);
                outline.measures.grid = 65_536;
                outline.measures.vectors = 65_536;
                outline.list = outline.list.min(2);
            }
            Limit::LargestGrid => {
                m.atoms = 8;
                m.first = 24;
                m.grid = 65_536;
            }
            Limit::LeastVectors => (),
        }
        outline
    }

    /// So many atoms, and at most so many in the supercell.
    fn small_cell(&mut self, atoms: u64, supercell: u64) {
        let m = &mut self.measures;
        m.atoms = atoms;
        m.first = m.first.min(3 * atoms);
        m.supercell = m.supercell.min(supercell);
    }
}

/// The limits of a door, and how likely each is; the larger the sets, the rarer.
fn limits(door: Door) -> (&'static [Limit], &'static [usize]) {
    const ALL: [Limit; 9] = [
        Limit::Atoms,
        Limit::First,
        Limit::Grid,
        Limit::Supercell,
        Limit::Vectors,
        Limit::LargestCell,
        Limit::LargestFull,
        Limit::GridAndVectors,
        Limit::List,
    ];
    const WEIGHTS: [usize; 9] = [20, 20, 20, 20, 50, 5, 2, 3, 12];
    const FEW: [Limit; 4] = [Limit::Atoms, Limit::First, Limit::Grid, Limit::LargestGrid];
    match door {
        Door::Totals | Door::Weights => (&FEW, &[20, 20, 20, 3]),
        Door::List => (&ALL, &WEIGHTS),
        _ => (&ALL[..8], &WEIGHTS[..8]),
    }
}

/// Symmetrizing takes 6·B⁵ steps, so it is rarer for many atoms.
fn symmetry(random: &mut Random, atoms: u64) -> Symmetry {
    let one_in = [2, 2, 2, 3, 4, 8, 12, 16][atoms as usize - 1];
    if random.chance(one_in) {
        Symmetry::Symmetrized
    } else {
        Symmetry::Off
    }
}

fn supercell(random: &mut Random, atoms: u64) -> u64 {
    let high = match random.weighted(&[10, 8, 3, 1]) {
        0 => 4,
        1 => 2 * atoms as i64 + 2,
        2 => 16,
        _ => 64,
    };
    random.between(1, high) as u64
}

fn first(random: &mut Random, atoms: u64) -> u64 {
    let bands = 3 * atoms as i64;
    match random.below(5) {
        0 => 1,
        1 => bands as u64,
        _ => random.between(1, bands) as u64,
    }
}

/// 1 to `usual`, now and then up to `most`.
fn count(random: &mut Random, usual: i64, most: i64) -> u64 {
    let high = if random.chance(20) { most } else { usual };
    random.between(1, high) as u64
}

fn list(random: &mut Random, door: Door, atoms: u64) -> u64 {
    if door != Door::List {
        return 1;
    }
    let high = match atoms {
        1 if random.chance(8) => 40,
        1..=3 => 6,
        _ => 3,
    };
    random.between(1, high) as u64
}

/// Styles of the tables whose numbers may overflow or underflow together.
pub struct Styles {
    pub constants: Style,
    pub eigenvectors: Style,
    pub frequencies: Style,
    pub masses: Style,
    pub weights: Style,
}

/// The style of a kind.
pub fn style_of(kind: Kind) -> Style {
    match kind {
        Kind::Coarse => Style::Coarse,
        Kind::Wide => Style::Wide,
        Kind::Huge => Style::Huge,
        Kind::Tiny => Style::Tiny,
        _ => Style::Usual,
    }
}

impl Styles {
    pub fn of(random: &mut Random, kind: Kind) -> Styles {
        let style = style_of(kind);
        let mut some = || {
            if random.chance(2) {
                style
            } else {
                Style::Usual
            }
        };
        Styles {
            constants: some(),
            eigenvectors: some(),
            frequencies: some(),
            masses: some(),
            weights: some(),
        }
    }
}

fn table<T>(count: u128, mut entry: impl FnMut() -> T) -> Vec<T> {
    (0..count).map(|_| entry()).collect()
}

pub fn flags(random: &mut Random, count: u128) -> Vec<u8> {
    match random.below(8) {
        0 => vec![0; count as usize],
        1 => table(count, || u8::from(!random.chance(12))),
        2 => table(count, || u8::from(random.chance(12))),
        3 => table(count, || random.pick(&[0, 0, 2, 127, 128, 255])),
        4 if random.chance(3) => vec![random.pick(&[1, 128, 255]); count as usize],
        5 => table(count, || {
            if random.chance(3) {
                random.between(1, 255) as u8
            } else {
                0
            }
        }),
        _ => table(count, || u8::from(random.chance(2))),
    }
}

/// Atoms of the supercell that stand for the primitive ones: mostly all different, sometimes repeated.
fn p2s(random: &mut Random, m: &Measures) -> Vec<i64> {
    let supercell = m.supercell as i64;
    let mut chosen: Vec<i64> = Vec::new();
    let repeats = random.chance(4) || m.atoms > m.supercell;
    while chosen.len() < m.atoms as usize {
        let atom = random.between(0, supercell - 1);
        if repeats || !chosen.contains(&atom) {
            chosen.push(atom);
        }
    }
    chosen
}

/// Mostly images of the primitive atoms, some of no one.
fn s2p(random: &mut Random, m: &Measures, p2s: &[i64]) -> Vec<i64> {
    let mut map = table(m.supercell.into(), || {
        if random.chance(8) {
            random.between(0, m.supercell as i64 - 1)
        } else {
            random.pick(p2s)
        }
    });
    if random.chance(2) {
        for &atom in p2s {
            map[atom as usize] = atom;
        }
    }
    map
}

/// (count, start) for each entry; counts are small, or reach to the last vector.
fn multiplicity(random: &mut Random, outline: &Outline) -> Vec<i64> {
    let m = &outline.measures;
    let vectors = m.vectors as i64;
    let mut entries = Vec::new();
    for _ in 0..m.supercell * m.atoms {
        let start = random.between(0, vectors - 1);
        let left = vectors - start;
        let count = match random.below(6) {
            0 => left,
            1 | 2 => 1,
            _ => random.between(1, left.min(4)),
        };
        entries.extend([count, start]);
    }
    // The last entry reaches the last vector exactly.
    if random.chance(3) {
        let last = entries.len() - 2;
        entries[last] = vectors - entries[last + 1];
    }
    if outline.limit == Some(Limit::Vectors) {
        let whole = random.below(entries.len() / 2);
        entries[2 * whole..][..2].copy_from_slice(&[vectors, 0]);
    }
    entries
}

fn eigenvectors(random: &mut Random, count: u128, style: Style) -> Vec<f64> {
    let zeros = random.pick(&[0, 0, 3, 2]);
    let mut numbers = table(count, || {
        if zeros > 0 && random.chance(zeros) {
            random.pick(&[0.0, -0.0])
        } else {
            numbers::number(random, style)
        }
    });
    // Whole entries that are zero in both parts.
    if random.chance(2) {
        for entry in numbers.chunks_mut(2) {
            if random.chance(4) {
                entry.fill(0.0);
            }
        }
    }
    numbers
}

/// The tables of a set, all but mesh, q matrix, addresses and vectors, which `phases` makes, and the shape, which `weights` makes.
pub fn call(random: &mut Random, door: Door, kind: Kind, outline: &Outline) -> Call {
    let styles = Styles::of(random, kind);
    let m = outline.measures;
    let all = Lengths::of(&m, outline.form);
    let only = |tables: bool, count: u128| if tables { count } else { 0 };
    let tables = door.has_strengths_tables();
    let slots = all.slots * u128::from(outline.list);
    let entries = match outline.weighting {
        Weighting::PerSlot => slots,
        Weighting::AtFrequencyPoint => pair_count(m.atoms),
    };
    let p2s = if tables { p2s(random, &m) } else { vec![] };
    let s2p = if tables {
        s2p(random, &m, &p2s)
    } else {
        vec![]
    };
    let frequencies = table(all.frequencies, || {
        numbers::frequency(random, styles.frequencies)
    });
    let triplets = table(u128::from(outline.list), || triplet(random, m.grid));
    let own = own_frequencies(&frequencies, &m, triplets[0]);
    let mut nonzero_in = random.pick(&[1, 2, 2, 3, 10]);
    if outline.limit == Some(Limit::Vectors) {
        // The one long entry is to be worked.
        nonzero_in = 1;
    }
    let strengths = StrengthsSet {
        measures: m,
        settings: Settings {
            anchoring: outline.anchoring,
            cutoff: numbers::cutoff(random, &own),
        },
        form: outline.form,
        symmetry: outline.symmetry,
        mesh: [1; 3],
        q_matrix: [1, 0, 0, 0, 1, 0, 0, 0, 1],
        addresses: vec![0; only(tables, all.addresses) as usize],
        vectors: vec![0.0; only(tables, all.vectors) as usize],
        multiplicity: if tables {
            multiplicity(random, outline)
        } else {
            vec![]
        },
        p2s,
        s2p,
        masses: table(only(tables, all.masses), || {
            numbers::mass(random, styles.masses)
        }),
        bands: table(only(door.has_bands(), all.bands), || {
            random.between(0, 3 * m.atoms as i64 - 1)
        }),
        eigenvectors: eigenvectors(random, only(tables, all.eigenvectors), styles.eigenvectors),
        all_shortest: flags(random, only(tables, all.all_shortest)),
        nonzero: table(only(tables, all.nonzero), || {
            if random.chance(nonzero_in) {
                random.pick(&[1, 1, 2, 128, 255])
            } else {
                0
            }
        }),
        flags: flags(random, only(door.has_flags(), entries)),
        force_constants: table(only(tables, all.force_constants), || {
            numbers::number(random, styles.constants)
        }),
        frequencies,
    };
    let weights = only(door.has_bath(), entries);
    let bath = Bath {
        weight: random.pick(&[1, 1, 2, 3, 48, 65_537, 2_147_483_647]),
        temperature: numbers::temperature(random, &own),
    };
    let set = JoinedSet {
        triplet: triplets[0],
        bath,
        first_weights: table(weights, || numbers::number(random, styles.weights)),
        second_weights: table(weights, || numbers::number(random, styles.weights)),
        strengths,
    };
    let work = work_size(&m) as usize + random.pick(&[0, 0, 1, 7, 40]);
    Call {
        door,
        kind,
        limit: outline.limit,
        planted: vec![],
        list: outline.list,
        triplets: if door == Door::List {
            triplets.concat()
        } else {
            vec![]
        },
        weighting: outline.weighting,
        read_strengths: table(only(door == Door::Totals, all.slots), || {
            let x = numbers::number(random, styles.constants);
            if random.chance(9) {
                x
            } else {
                x.abs()
            }
        }),
        shape: Shape::Box(1.0),
        foreign: None,
        before: Buffers {
            strengths: any_table(random, only(tables, slots) as usize),
            totals: any_table(random, only(door.has_totals(), m.first.into()) as usize),
            work: any_table(random, only(tables, work as u128) as usize),
            first_weights: any_table(random, only(door == Door::Weights, slots) as usize),
            second_weights: any_table(random, only(door == Door::Weights, slots) as usize),
            flags: table(only(door == Door::Weights, slots), || random.bits() as u8),
        },
        set,
    }
}

fn own_frequencies(frequencies: &[f64], m: &Measures, triplet: [i64; 3]) -> Vec<f64> {
    let bands = 3 * m.atoms as usize;
    triplet
        .iter()
        .flat_map(|&point| &frequencies[point as usize * bands..][..bands])
        .copied()
        .collect()
}

/// Three grid points, some or all the same now and then; the last point of the grid often among them.
pub fn triplet(random: &mut Random, grid: u64) -> [i64; 3] {
    let last = grid as i64 - 1;
    let mut points = [(); 3].map(|()| random.between(0, last));
    match random.below(8) {
        0 => points = [points[0]; 3],
        1 => points[2] = points[1],
        2 => points[1] = points[0],
        3 => points[random.below(3)] = last,
        _ => (),
    }
    points
}

/// Leaves nothing to work in one of several ways; true if nothing is left.
pub fn make_idle(random: &mut Random, call: &mut Call) -> bool {
    let ways = if call.door.has_strengths_tables() {
        4
    } else {
        2
    };
    let tables = &mut call.set.strengths;
    match random.below(ways) {
        0 => tables.flags.fill(random.pick(&[1, 2, 128, 255])),
        1 => {
            let most = tables.frequencies.iter().copied().fold(0.0, f64::max);
            tables.settings.cutoff = most;
        }
        2 => tables.nonzero.fill(0),
        _ => {
            // No supercell atom is an image, where some atom is none of the primitive cell's.
            let supercell = tables.measures.supercell as i64;
            let nobody = (0..supercell).find(|atom| !tables.p2s.contains(atom));
            match nobody {
                Some(nobody) => tables.s2p.fill(nobody),
                None => return false,
            }
        }
    }
    true
}

/// Makes the sums of one component of one atom overflow, and that component zero in some bands, which must pass it.
pub fn make_hot(random: &mut Random, call: &mut Call) {
    let tables = &mut call.set.strengths;
    if tables.force_constants.is_empty() {
        return;
    }
    let m = tables.measures;
    let bands = 3 * m.atoms as usize;
    let (atom, part) = (random.below(m.atoms as usize), random.below(3));
    let row = match tables.form {
        Form::Compact => atom,
        Form::Full => tables.p2s[atom] as usize,
    };
    let blocks = (m.supercell * m.supercell) as usize;
    for block in 0..blocks {
        let place = 27 * (row * blocks + block) + 9 * part;
        tables.force_constants[place..place + 9].fill(f64::MAX);
    }
    // Full turns only, so that the images add up; tripled where all is shortest, and not read by the other legs.
    tables.addresses.fill(0);
    tables.all_shortest.fill(random.pick(&[1, 1, 0]));
    for point in 0..m.grid as usize {
        for band in 0..bands {
            if !random.chance(4) {
                let entry = (point * bands + 3 * atom + part) * bands + band;
                let zeros = random.pick(&[[0.0, 0.0], [-0.0, 0.0], [0.0, -0.0], [-0.0, -0.0]]);
                tables.eigenvectors[2 * entry..][..2].copy_from_slice(&zeros);
            }
        }
    }
}

/// A temperature that puts the lowest counted frequency over it at 709, and first weights 0: the total is then made
/// of occupations near the least normal number.
pub fn make_cold(random: &mut Random, call: &mut Call) {
    if !call.door.has_bath() {
        return;
    }
    for x in &mut call.set.strengths.frequencies {
        *x = 0.05 + 20.0 * random.part();
    }
    let tables = &mut call.set.strengths;
    let own = own_frequencies(&tables.frequencies, &tables.measures, call.set.triplet);
    let lowest = own[own.len() / 3..]
        .iter()
        .copied()
        .fold(f64::MAX, f64::min);
    tables.settings.cutoff = 0.0;
    call.set.bath.temperature = lowest / random.pick(&[709.0, 709.0, 708.0, 709.5]);
    call.set.first_weights.fill(0.0);
}
