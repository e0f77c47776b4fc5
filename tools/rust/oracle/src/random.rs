//! Random sets within the limits, for tests.

use crate::sets::*;

/// A 64-bit xorshift generator.
pub struct Random(pub u64);

impl Random {
    pub fn next(&mut self) -> u64 {
        self.0 ^= self.0 << 13;
        self.0 ^= self.0 >> 7;
        self.0 ^= self.0 << 17;
        self.0
    }

    /// Low to high, both included.
    pub fn between(&mut self, low: i64, high: i64) -> i64 {
        low + (self.next() % (high - low + 1) as u64) as i64
    }

    pub fn chance(&mut self, one_in: u64) -> bool {
        self.next().is_multiple_of(one_in)
    }

    /// From −1 to 1.
    pub fn unit(&mut self) -> f64 {
        (self.next() >> 11) as f64 / (1u64 << 52) as f64 - 1.0
    }

    fn units(&mut self, count: u128) -> Vec<f64> {
        (0..count).map(|_| self.unit()).collect()
    }

    fn indices(&mut self, count: u128, high: u64) -> Vec<i64> {
        (0..count)
            .map(|_| self.between(0, high as i64 - 1))
            .collect()
    }

    fn flags(&mut self, count: u128, one_in: u64) -> Vec<u8> {
        (0..count)
            .map(|_| {
                if self.chance(one_in) {
                    self.between(1, 255) as u8
                } else {
                    0
                }
            })
            .collect()
    }

    pub fn triplet(&mut self, grid: u64) -> [i64; 3] {
        [(); 3].map(|()| self.between(0, grid as i64 - 1))
    }

    fn multiplicity(&mut self, entries: u64, vectors: u64) -> Vec<i64> {
        let mut table = Vec::new();
        for _ in 0..entries {
            let start = self.between(0, vectors as i64 - 1);
            table.extend([self.between(1, vectors as i64 - start), start]);
        }
        table
    }

    fn measures(&mut self) -> Measures {
        let atoms = self.between(1, 2) as u64;
        Measures {
            atoms,
            supercell: self.between(1, 3) as u64,
            first: self.between(1, 3 * atoms as i64) as u64,
            grid: self.between(1, 4) as u64,
            vectors: self.between(1, 5) as u64,
        }
    }

    /// An accepted set unless a phase is beyond the limit; `reach` scales the vectors.
    pub fn strengths_set(&mut self, reach: f64) -> StrengthsSet {
        let measures = self.measures();
        let form = if self.chance(2) {
            Form::Compact
        } else {
            Form::Full
        };
        let l = Lengths::of(&measures, form);
        let anchoring = if self.chance(2) {
            Anchoring::Plain
        } else {
            Anchoring::Averaged
        };
        StrengthsSet {
            measures,
            settings: Settings {
                anchoring,
                cutoff: 0.1,
            },
            form,
            symmetry: if self.chance(2) {
                Symmetry::Off
            } else {
                Symmetry::Symmetrized
            },
            mesh: [(); 3].map(|()| self.between(1, 8)),
            q_matrix: [(); 9].map(|()| self.between(-2, 2)),
            addresses: (0..l.addresses).map(|_| self.between(-20, 20)).collect(),
            vectors: self.units(l.vectors).iter().map(|x| x * reach).collect(),
            multiplicity: self.multiplicity(measures.supercell * measures.atoms, measures.vectors),
            p2s: self.indices(l.p2s, measures.supercell),
            s2p: self.indices(l.s2p, measures.supercell),
            masses: self.units(l.masses).iter().map(|x| x + 1.5).collect(),
            bands: self.indices(l.bands, 3 * measures.atoms),
            frequencies: self.units(l.frequencies).iter().map(|x| x + 0.8).collect(),
            eigenvectors: self.units(l.eigenvectors),
            all_shortest: self.flags(l.all_shortest, 3),
            nonzero: self.flags(l.nonzero, 2),
            flags: self.flags(l.slots, 3),
            force_constants: self.units(l.force_constants),
        }
    }

    pub fn joined_set(&mut self) -> JoinedSet {
        let strengths = self.strengths_set(1.0);
        let slots = slot_count(strengths.measures.atoms, strengths.measures.first);
        JoinedSet {
            triplet: self.triplet(strengths.measures.grid),
            bath: Bath {
                weight: self.between(1, 9),
                temperature: self.between(0, 3) as f64,
            },
            first_weights: self.units(slots),
            second_weights: self.units(slots),
            strengths,
        }
    }
}
