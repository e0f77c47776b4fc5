//! The sets that are timed: P atoms, 8·P in the supercell, F = B; for the weights many frequency tables.

use differential::call::{Buffers, Call, Door, Kind};
use differential::random::Random;
use oracle::sets::*;

#[derive(Clone, Copy, Debug, PartialEq, Eq)]
pub enum Timed {
    /// Strengths of one triplet.
    Triplet,
    /// Strengths of a list of triplets; times are of one of them. What a set is tested for beside the phases is tested once for
    /// all, so that this comes near to the time of the work alone.
    List,
    /// Totals alone, beside the Rust function that is handed the positions of the unflagged slots.
    Totals,
    /// Totals alone, beside the Rust driver that finds these positions from the flags.
    TotalsFromFlags,
    /// Strengths and totals.
    Joined,
    /// The weights of a shape, beside the oracle's plain Rust of document 02.
    Weights,
}

impl Timed {
    pub const ALL: [Timed; 6] = [
        Timed::Triplet,
        Timed::List,
        Timed::Totals,
        Timed::TotalsFromFlags,
        Timed::Joined,
        Timed::Weights,
    ];

    pub fn name(self) -> &'static str {
        match self {
            Timed::Triplet => "triplet",
            Timed::List => "list",
            Timed::Totals => "totals",
            Timed::TotalsFromFlags => "totals from flags",
            Timed::Joined => "joined",
            Timed::Weights => "weights",
        }
    }

    /// The word on the command line; `totals` gives both comparisons.
    pub fn word(self) -> &'static str {
        match self {
            Timed::TotalsFromFlags => "totals",
            other => other.name(),
        }
    }

    fn door(self) -> Door {
        match self {
            Timed::Triplet => Door::Triplet,
            Timed::List => Door::List,
            Timed::Totals | Timed::TotalsFromFlags => Door::Totals,
            Timed::Joined => Door::Joined,
            Timed::Weights => Door::Weights,
        }
    }
}

/// The sizes that are timed, by their atoms: cartons of an exam have one to three.
pub const ATOMS: [u64; 5] = [1, 2, 3, 4, 8];

/// The triplets of a list.
const LIST: [[i64; 3]; 8] = [
    [0, 1, 2],
    [1, 2, 0],
    [2, 0, 1],
    [0, 2, 1],
    [1, 0, 2],
    [2, 1, 0],
    [0, 0, 1],
    [1, 1, 2],
];

/// The shapes that are timed. Of frequencies up to 16 the first Gaussian cuts most off and the second few.
pub const SHAPES: [Shape; 4] = [
    Shape::Gaussian(0.1),
    Shape::Gaussian(1.0),
    Shape::Lorentzian(0.1),
    Shape::Box(0.5),
];

/// Slots of the weights that are worked before a frequency table comes again, and the least number of tables: too many for the
/// machine to learn which of them lie within the shape's edge.
const SLOTS: u128 = 1 << 16;
const TABLES: u128 = 16;

#[derive(Clone, Copy, Debug, PartialEq)]
pub struct Case {
    pub timed: Timed,
    pub atoms: u64,
    pub averaged: bool,
    pub symmetrized: bool,
    pub half_flagged: bool,
    /// Of the weights alone.
    pub shape: Option<Shape>,
}

impl Case {
    /// Every case of what is timed; anchoring and symmetrizing do not touch totals alone, and the weights have a shape in their place
    /// and write the flags.
    pub fn all(timed: Timed) -> Vec<Case> {
        let plain = Case {
            timed,
            atoms: ATOMS[0],
            averaged: false,
            symmetrized: false,
            half_flagged: false,
            shape: None,
        };
        let choices = match timed {
            Timed::Totals | Timed::TotalsFromFlags => vec![plain],
            Timed::Weights => SHAPES
                .map(|shape| Case {
                    shape: Some(shape),
                    ..plain
                })
                .to_vec(),
            _ => [(false, false), (true, false), (false, true), (true, true)]
                .map(|(averaged, symmetrized)| Case {
                    averaged,
                    symmetrized,
                    ..plain
                })
                .to_vec(),
        };
        let flags: &[bool] = match timed {
            Timed::Weights => &[false],
            _ => &[false, true],
        };
        let mut cases = Vec::new();
        for choice in choices {
            for &half_flagged in flags {
                for atoms in ATOMS {
                    cases.push(Case {
                        atoms,
                        half_flagged,
                        ..choice
                    });
                }
            }
        }
        cases
    }

    /// Anchoring and symmetrizing in words, or the shape; none for totals alone.
    pub fn choices(&self) -> String {
        if let Some(shape) = self.shape {
            let name = match shape {
                Shape::Gaussian(_) => "Gaussian",
                Shape::Lorentzian(_) => "Lorentzian",
                Shape::Box(_) => "box",
            };
            return format!("{name} {:?}", shape.width());
        }
        match (self.timed.door(), self.averaged, self.symmetrized) {
            (Door::Totals, _, _) => "",
            (_, false, false) => "plain",
            (_, true, false) => "averaged",
            (_, false, true) => "plain, symmetrized",
            (_, true, true) => "averaged, symmetrized",
        }
        .to_string()
    }

    /// The flags that are handed in; none to the weights.
    pub fn flags(&self) -> &'static str {
        match (self.timed, self.half_flagged) {
            (Timed::Weights, _) => "",
            (_, true) => "half flagged",
            (_, false) => "no flags",
        }
    }

    /// How many triplets a call works.
    pub fn triplets(&self) -> usize {
        match self.timed {
            Timed::List => LIST.len(),
            _ => 1,
        }
    }

    /// The calls that are gone through in turn: one, or for the weights as many as keep the machine from learning them.
    pub fn calls(&self) -> Vec<Call> {
        match self.shape {
            Some(shape) => {
                let slots = slot_count(self.atoms, 3 * self.atoms);
                (0..SLOTS.div_ceil(slots).max(TABLES) as u64)
                    .map(|place| self.weights_call(shape, place))
                    .collect()
            }
            None => vec![self.call(8 * self.atoms)],
        }
    }

    /// An accepted call of the weights, which have no supercell, with frequencies as a crystal has them in THz.
    fn weights_call(&self, shape: Shape, place: u64) -> Call {
        let mut random = Random::of(8, self.atoms, place);
        let mut call = self.call(0);
        for x in &mut call.set.strengths.frequencies {
            *x = 0.5 + 15.5 * random.part();
        }
        let slots = call.set.strengths.flags.len();
        call.shape = shape;
        call.before.first_weights = vec![0.0; slots];
        call.before.second_weights = vec![0.0; slots];
        call.before.flags = vec![0; slots];
        call
    }

    /// An accepted call with everything to work: all frequencies above the cutoff, all force constants nonzero, a
    /// quarter of the pairs all-shortest, eight images of each atom.
    fn call(&self, supercell: u64) -> Call {
        let mut random = Random::of(7, self.atoms, 0);
        let random = &mut random;
        let m = Measures {
            atoms: self.atoms,
            supercell,
            first: 3 * self.atoms,
            grid: 3,
            vectors: 2 * supercell * self.atoms,
        };
        let l = Lengths::of(&m, Form::Compact);
        let mut units = |count: u128| -> Vec<f64> { (0..count).map(|_| random.unit()).collect() };
        let (vectors, eigenvectors) = (units(l.vectors), units(l.eigenvectors));
        let force_constants = units(l.force_constants);
        let (first_weights, second_weights) = (units(l.slots), units(l.slots));
        let strengths = StrengthsSet {
            measures: m,
            settings: Settings {
                anchoring: if self.averaged {
                    Anchoring::Averaged
                } else {
                    Anchoring::Plain
                },
                cutoff: 0.01,
            },
            form: Form::Compact,
            symmetry: if self.symmetrized {
                Symmetry::Symmetrized
            } else {
                Symmetry::Off
            },
            mesh: [8; 3],
            q_matrix: [1, 0, 0, 0, 1, 0, 0, 0, 1],
            addresses: vec![1, 2, 3, 3, -2, 1, -4, 0, -4],
            vectors,
            multiplicity: multiplicity(random, &m),
            p2s: (0..self.atoms as i64).map(|atom| 8 * atom).collect(),
            s2p: (0..m.supercell as i64)
                .map(|atom| atom - atom % 8)
                .collect(),
            masses: (0..self.atoms)
                .map(|_| 10.0 + 50.0 * random.part())
                .collect(),
            bands: (0..m.first as i64).collect(),
            frequencies: (0..l.frequencies)
                .map(|_| 0.5 + 12.0 * random.part())
                .collect(),
            eigenvectors,
            all_shortest: (0..l.all_shortest)
                .map(|_| u8::from(random.chance(4)))
                .collect(),
            nonzero: vec![1; l.nonzero as usize],
            flags: (0..self.triplets() as u128 * l.slots)
                .map(|_| u8::from(self.half_flagged && random.chance(2)))
                .collect(),
            force_constants,
        };
        let slots = l.slots as usize;
        Call {
            door: self.timed.door(),
            kind: Kind::Usual,
            limit: None,
            planted: vec![],
            list: LIST.len() as u64,
            triplets: LIST.concat(),
            weighting: Weighting::PerSlot,
            read_strengths: (0..slots).map(|_| random.part()).collect(),
            shape: Shape::Box(1.0),
            foreign: None,
            before: Buffers {
                strengths: vec![0.0; self.triplets() * slots],
                totals: vec![0.0; m.first as usize],
                work: vec![0.0; work_size(&m) as usize],
                ..Buffers::default()
            },
            set: JoinedSet {
                strengths,
                triplet: [0, 1, 2],
                bath: Bath {
                    weight: 2,
                    temperature: 6.25,
                },
                first_weights,
                second_weights,
            },
        }
    }
}

/// One or two vectors for each entry.
fn multiplicity(random: &mut Random, m: &Measures) -> Vec<i64> {
    (0..m.supercell * m.atoms)
        .flat_map(|_| {
            let count = random.between(1, 2);
            [count, random.between(0, m.vectors as i64 - count)]
        })
        .collect()
}
