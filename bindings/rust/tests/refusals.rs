//! Every number of strengths and totals, with buffers untouched; every length; every limit of the measures.

mod common;

use common::{cell_u, crystal, crystal_list, Cell, Left};
use wirambolo::flat::{self, FlatTotals};
use wirambolo::*;

type Change = fn(&mut Cell);

/// The change alone turns the set away with this number, in every function that is handed what it changes.
fn refuses(cell: &Cell, refusal: Refusal, change: Change, call: fn(&Cell) -> Left, name: &str) {
    let changed = cell.with(change);
    assert_eq!(call(&changed), changed.untouched(refusal), "{name}");
}

/// Beyond the measures: refused by the three functions that work strengths.
const STRENGTHS: [(&str, Refusal, Change); 22] = [
    ("triplet", Refusal::Index, |c| c.triplets[0][2] = 5),
    ("triplet", Refusal::Index, |c| c.triplets[0][0] = -1),
    ("p2s", Refusal::Index, |c| c.p2s[1] = 3),
    ("s2p", Refusal::Index, |c| c.s2p[2] = -1),
    ("bands", Refusal::Index, |c| c.bands[3] = 6),
    ("count", Refusal::Index, |c| c.multiplicity[10] = 0),
    ("start", Refusal::Index, |c| c.multiplicity[11] = -1),
    ("range", Refusal::Index, |c| c.multiplicity[6] = 2),
    ("range", Refusal::Index, |c| c.multiplicity[7] = i64::MAX),
    ("vectors", Refusal::NotFinite, |c| c.vectors[20] = f64::NAN),
    ("masses", Refusal::NotFinite, |c| {
        c.masses[1] = f64::INFINITY
    }),
    ("frequencies", Refusal::NotFinite, |c| {
        c.frequencies[29] = f64::NAN
    }),
    ("eigenvectors", Refusal::NotFinite, |c| {
        c.eigenvectors[359] = f64::NEG_INFINITY
    }),
    ("constants", Refusal::NotFinite, |c| {
        c.constants[728] = f64::NAN
    }),
    ("cutoff", Refusal::NotFinite, |c| {
        c.settings.cutoff = f64::NAN
    }),
    ("addresses", Refusal::Mesh, |c| c.addresses[14] = 1_048_577),
    ("mesh", Refusal::Mesh, |c| c.mesh[2] = 0),
    ("matrix", Refusal::Mesh, |c| c.matrix[8] = i64::MIN),
    ("masses", Refusal::Mass, |c| c.masses[1] = -0.0),
    ("cutoff", Refusal::Cutoff, |c| c.settings.cutoff = -0.5),
    ("phase", Refusal::Phase, |c| c.vectors[0] = 1e6),
    ("lowest", Refusal::NotFinite, |c| {
        c.masses[0] = 0.0;
        c.constants[0] = f64::NAN;
    }),
];

#[test]
fn strengths() {
    for (name, refusal, change) in STRENGTHS {
        refuses(&crystal(), refusal, change, Cell::one_triplet, name);
        refuses(&crystal_list(), refusal, change, Cell::list, name);
        refuses(&crystal(), refusal, change, Cell::joined, name);
    }
}

/// The second triplet of a list alone.
#[test]
fn list() {
    let cell = crystal_list();
    refuses(
        &cell,
        Refusal::Index,
        |c| c.triplets[1][1] = 5,
        Cell::list,
        "point",
    );
    refuses(
        &cell,
        Refusal::Measure,
        |c| c.triplets.clear(),
        Cell::list,
        "empty",
    );
    // Grid point 4 is in the second triplet only.
    refuses(
        &cell,
        Refusal::Phase,
        |c| c.addresses[12] = 1_048_576,
        Cell::list,
        "phase",
    );
    let one = crystal()
        .with(|c| c.addresses[12] = 1_048_576)
        .one_triplet();
    assert_eq!(one.answer, Ok(()));
}

#[test]
fn bath() {
    let changes: [(&str, Refusal, Change); 6] = [
        ("temperature", Refusal::NotFinite, |c| {
            c.bath.temperature = f64::INFINITY
        }),
        ("first weights", Refusal::NotFinite, |c| {
            c.first_weights[143] = f64::NAN
        }),
        ("second weights", Refusal::NotFinite, |c| {
            c.second_weights[143] = f64::NAN
        }),
        ("weight", Refusal::Bath, |c| c.bath.weight = 0),
        ("weight", Refusal::Bath, |c| c.bath.weight = 2_147_483_648),
        ("temperature", Refusal::Bath, |c| c.bath.temperature = -1.0),
    ];
    let alone = |cell: &Cell| cell.totals_alone(Weights::PerSlot);
    for (name, refusal, change) in changes {
        refuses(&crystal(), refusal, change, Cell::joined, name);
        refuses(&crystal(), refusal, change, alone, name);
    }
    refuses(
        &crystal(),
        Refusal::NotFinite,
        |c| c.strengths[0] = f64::NAN,
        alone,
        "strengths",
    );
    refuses(
        &crystal(),
        Refusal::Index,
        |c| c.triplets[0][1] = 5,
        alone,
        "triplet",
    );
    refuses(
        &crystal(),
        Refusal::Cutoff,
        |c| c.settings.cutoff = -0.5,
        alone,
        "cutoff",
    );
}

/// One entry less and one more in each slice. All measures differ, so no slice can stand in for another of its type.
#[test]
fn lengths() {
    fn resized<T: Clone>(slice: &mut Vec<T>, more: bool) {
        if more {
            slice.push(slice[0].clone());
        } else {
            slice.pop();
        }
    }
    type Resize = fn(&mut Cell, bool);
    let tables: [(&str, Resize); 14] = [
        ("addresses", |c, more| resized(&mut c.addresses, more)),
        ("vectors", |c, more| resized(&mut c.vectors, more)),
        ("multiplicity", |c, more| resized(&mut c.multiplicity, more)),
        ("p2s", |c, more| resized(&mut c.p2s, more)),
        ("s2p", |c, more| resized(&mut c.s2p, more)),
        ("masses", |c, more| resized(&mut c.masses, more)),
        ("bands", |c, more| resized(&mut c.bands, more)),
        ("frequencies", |c, more| resized(&mut c.frequencies, more)),
        ("eigenvectors", |c, more| resized(&mut c.eigenvectors, more)),
        ("shortest", |c, more| resized(&mut c.shortest, more)),
        ("nonzero", |c, more| resized(&mut c.nonzero, more)),
        ("constants", |c, more| resized(&mut c.constants, more)),
        ("flags", |c, more| resized(&mut c.flags, more)),
        ("strengths", |c, more| resized(&mut c.strengths, more)),
    ];
    let totals: [(&str, Resize); 3] = [
        ("first", |c, more| resized(&mut c.first_weights, more)),
        ("second", |c, more| resized(&mut c.second_weights, more)),
        ("totals", |c, more| resized(&mut c.totals, more)),
    ];
    for more in [false, true] {
        for (name, resize) in tables {
            let one = crystal().with(|c| resize(c, more));
            let list = crystal_list().with(|c| resize(c, more));
            assert_eq!(one.one_triplet(), one.untouched(Refusal::Length), "{name}");
            assert_eq!(one.joined(), one.untouched(Refusal::Length), "{name}");
            assert_eq!(list.list(), list.untouched(Refusal::Length), "{name}");
            let handed = ["frequencies", "flags", "strengths"].contains(&name);
            let alone = one.totals_alone(Weights::PerSlot).answer;
            let wanted = if handed { Err(Refusal::Length) } else { Ok(()) };
            assert_eq!(alone, wanted, "{name}");
        }
        for (name, resize) in totals {
            let cell = crystal().with(|c| resize(c, more));
            let untouched = cell.untouched(Refusal::Length);
            assert_eq!(cell.joined(), untouched, "{name}");
            assert_eq!(cell.totals_alone(Weights::PerSlot), untouched, "{name}");
            assert_eq!(cell.one_triplet().answer, Ok(()), "{name}");
        }
    }
}

/// W itself is enough, one less is not.
#[test]
fn work_buffer() {
    for cell in [cell_u(), crystal()] {
        let w = work_length(cell.measures.atoms, cell.measures.supercell);
        assert_eq!(cell.with(|c| c.work.truncate(w)).joined().answer, Ok(()));
        let short = cell.with(|c| c.work.truncate(w - 1));
        assert_eq!(short.joined(), short.untouched(Refusal::Length));
        assert_eq!(short.one_triplet(), short.untouched(Refusal::Length));
    }
}

/// A measure at its limit is refused for its tables' lengths, one beyond it for itself.
#[test]
fn limits() {
    let u = cell_u();
    let within: [Change; 5] = [
        |c| c.measures.atoms = 8,
        |c| c.measures.supercell = 64,
        |c| c.measures.first = 2,
        |c| c.measures.grid = 65_536,
        |c| c.measures.vectors = 65_536,
    ];
    for change in within {
        refuses(&u, Refusal::Length, change, Cell::joined, "within");
    }
    let beyond: [Change; 11] = [
        |c| c.measures.atoms = 0,
        |c| c.measures.atoms = 9,
        |c| c.measures.supercell = 0,
        |c| c.measures.supercell = 65,
        |c| c.measures.first = 0,
        |c| c.measures.first = 4,
        |c| c.measures.grid = 0,
        |c| c.measures.grid = 65_537,
        |c| c.measures.vectors = 0,
        |c| c.measures.vectors = 65_537,
        |c| c.measures.vectors = usize::MAX,
    ];
    for change in beyond {
        refuses(&u, Refusal::Measure, change, Cell::joined, "beyond");
        refuses(&u, Refusal::Measure, change, Cell::one_triplet, "beyond");
        refuses(&u, Refusal::Measure, change, Cell::list, "beyond");
    }
    refuses(
        &u,
        Refusal::Length,
        |c| c.triplets = vec![[0; 3]; 4096],
        Cell::list,
        "list",
    );
    refuses(
        &u,
        Refusal::Measure,
        |c| c.triplets = vec![[0; 3]; 4097],
        Cell::list,
        "list",
    );
}

#[test]
fn numbers_and_words() {
    for &refusal in Refusal::ALL {
        assert_eq!(Refusal::from_number(refusal.number()), Some(refusal));
    }
    let numbers: Vec<u8> = (0..=255)
        .filter(|&number| Refusal::from_number(number).is_some())
        .collect();
    assert_eq!(numbers, [1, 2, 3, 4, 5, 6, 7, 8, 9, 13, 255]);
    let error: Box<dyn std::error::Error> = Box::new(Refusal::Mass);
    assert_eq!(
        error.to_string(),
        "refused 6, mass: a mass is zero or below"
    );
}

/// A choice that is not known, before measures that are refused too: only `flat` can be called so.
#[test]
fn unreadable() {
    for (weights, atoms) in [(2, 1), (255, 0)] {
        let set = FlatTotals {
            measures: TotalsMeasures {
                atoms,
                first: 3,
                grid: 1,
            },
            weights,
            triplet: &[0; 3],
            frequencies: &[0.0; 3],
            cutoff: 0.0,
            flags: &[0; 27],
            strengths: &[0.0; 27],
            bath: Bath {
                weight: 1,
                temperature: 0.0,
            },
            first_weights: &[0.0; 27],
            second_weights: &[0.0; 27],
        };
        let mut totals = [-1.0; 3];
        let answer = flat::imag_self_energy_at_triplet(&set, &mut totals);
        assert_eq!(Refusal::from_number(answer), Some(Refusal::Unreadable));
        assert_eq!(totals, [-1.0; 3]);
    }
}
