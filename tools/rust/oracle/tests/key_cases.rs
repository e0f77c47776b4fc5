//! Document 01's key cases M1 to M11, every number compared by its bits.

mod sha256;

use oracle::carton::encode;
use oracle::cell_u::{cell_u, element, slot};
use oracle::doors;
use oracle::sets::*;

const WORK: usize = 210;
const USED: usize = 203;

/// What a case leaves behind: the answer, strengths, totals and work buffer.
struct Case {
    name: &'static str,
    set: JoinedSet,
    refusal: u8,
    strengths: Vec<f64>,
    totals: Vec<f64>,
}

fn changed(change: impl FnOnce(&mut JoinedSet)) -> JoinedSet {
    let mut set = cell_u();
    change(&mut set);
    set
}

/// `rest` in every slot but the listed ones.
fn slots(rest: f64, count: usize, held: &[(usize, f64)]) -> Vec<f64> {
    let mut strengths = vec![rest; count];
    for &(slot, value) in held {
        strengths[slot] = value;
    }
    strengths
}

fn accepted(name: &'static str, set: JoinedSet, strengths: Vec<f64>, totals: &[f64]) -> Case {
    Case {
        name,
        set,
        refusal: 0,
        strengths,
        totals: totals.to_vec(),
    }
}

/// Refused: strengths and totals stay at −1.
fn turned_back(name: &'static str, set: JoinedSet, refusal: u8) -> Case {
    Case {
        name,
        set,
        refusal,
        strengths: vec![-1.0; 27],
        totals: vec![-1.0; 3],
    }
}

fn flag_012(set: &mut JoinedSet) {
    set.strengths.flags[slot(0, 1, 2)] = 1;
}

fn with_bands_0_0(set: &mut JoinedSet) {
    set.strengths.measures.first = 2;
    set.strengths.bands = vec![0, 0];
    set.strengths.flags = vec![0; 18];
    set.first_weights = vec![2.0; 18];
    set.second_weights = vec![0.0; 18];
}

fn averaged(set: &mut JoinedSet) {
    set.strengths.settings.anchoring = Anchoring::Averaged;
}

fn cases() -> Vec<Case> {
    let at_012 = slots(0.0, 27, &[(slot(0, 1, 2), 0.5)]);
    vec![
        accepted("M1", cell_u(), at_012.clone(), &[3.0, 0.0, 0.0]),
        accepted(
            "M2",
            changed(|set| set.strengths.settings.cutoff = 1.0),
            vec![0.0; 27],
            &[0.0; 3],
        ),
        accepted(
            "M3",
            changed(|set| set.strengths.settings.cutoff = 0.75),
            at_012.clone(),
            &[3.0, 0.0, 0.0],
        ),
        accepted(
            "M4",
            changed(flag_012),
            slots(0.0, 27, &[(slot(0, 1, 2), -1.0)]),
            &[0.0; 3],
        ),
        m5(),
        accepted(
            "M6",
            changed(|set| {
                averaged(set);
                set.strengths.all_shortest[0] = 1;
            }),
            at_012,
            &[3.0, 0.0, 0.0],
        ),
        m7(),
        accepted(
            "M8",
            changed(|set| set.strengths.nonzero[0] = 0),
            vec![0.0; 27],
            &[0.0; 3],
        ),
        accepted(
            "M9",
            changed(with_bands_0_0),
            slots(0.0, 18, &[(slot(0, 1, 2), 0.5), (slot(1, 1, 2), 0.5)]),
            &[3.0, 3.0],
        ),
        turned_back("M10", changed(|set| set.strengths.multiplicity[0] = 0), 3),
        turned_back("M11", changed(|set| set.bath.temperature = -0.0), 8),
    ]
}

fn m5() -> Case {
    let set = changed(|set| {
        flag_012(set);
        set.strengths.symmetry = Symmetry::Symmetrized;
    });
    let sixth = 0.5 / 6.0;
    let five = [(0, 2, 1), (1, 0, 2), (1, 2, 0), (2, 0, 1), (2, 1, 0)];
    let held: Vec<_> = five
        .iter()
        .map(|&(b, j, k)| (slot(b, j, k), sixth))
        .collect();
    let term = 2.0 * sixth * 3.0;
    accepted(
        "M5",
        set,
        slots(0.0, 27, &held),
        &[term, term + term, term + term],
    )
}

fn m7() -> Case {
    let set = changed(|set| {
        averaged(set);
        set.strengths.force_constants[element(0, 1, 2)] = 48.0;
    });
    let held = [
        (slot(0, 1, 2), 0.5),
        (slot(1, 0, 2), 0.5),
        (slot(2, 1, 0), 0.5),
    ];
    accepted("M7", set, slots(0.0, 27, &held), &[3.0; 3])
}

fn bits(numbers: &[f64]) -> Vec<u64> {
    numbers.iter().map(|x| x.to_bits()).collect()
}

/// The work buffer after an accepted or a refused call.
fn work_after(refusal: u8) -> Vec<f64> {
    let mut work = vec![-1.0; WORK];
    if refusal == 0 {
        work[..USED].fill(0.0);
    }
    work
}

/// The number, every strength and every number of the work buffer are the case's.
fn assert_left(case: &Case, refusal: u8, strengths: &[f64], work: &[f64]) {
    let name = &case.name;
    assert_eq!(refusal, case.refusal, "{name}");
    assert_eq!(bits(strengths), bits(&case.strengths), "{name}");
    assert_eq!(bits(work), bits(&work_after(case.refusal)), "{name}");
}

#[test]
fn joined_door() {
    for case in cases() {
        let mut strengths = vec![-1.0; case.strengths.len()];
        let mut totals = vec![-1.0; case.totals.len()];
        let mut work = vec![-1.0; WORK];
        let refusal = doors::joined(&case.set, &mut strengths, &mut totals, &mut work);
        assert_left(&case, refusal, &strengths, &work);
        assert_eq!(bits(&totals), bits(&case.totals), "{}", case.name);
    }
}

/// The one-triplet door and a list of one; they are handed no bath, so M11 is no case of theirs.
#[test]
fn strengths_doors() {
    for case in cases().iter().filter(|case| case.name != "M11") {
        let tables = &case.set.strengths;
        for as_list in [false, true] {
            let mut strengths = vec![-1.0; case.strengths.len()];
            let mut work = vec![-1.0; WORK];
            let refusal = if as_list {
                doors::list_of_triplets(tables, 1, &case.set.triplet, &mut strengths, &mut work)
            } else {
                doors::one_triplet(tables, case.set.triplet, &mut strengths, &mut work)
            };
            assert_left(case, refusal, &strengths, &work);
        }
    }
}

/// Totals alone on the strengths of each case; it is handed no multiplicity, so M10 is no case of its own.
#[test]
fn totals_door() {
    for case in cases().iter().filter(|case| case.name != "M10") {
        let tables = &case.set.strengths;
        let m = &tables.measures;
        let set = TotalsSet {
            measures: TotalsMeasures {
                atoms: m.atoms,
                first: m.first,
                grid: m.grid,
            },
            cutoff: tables.settings.cutoff,
            weighting: Weighting::PerSlot,
            bath: case.set.bath,
            triplet: case.set.triplet,
            frequencies: tables.frequencies.clone(),
            strengths: case.strengths.clone(),
            flags: tables.flags.clone(),
            first_weights: case.set.first_weights.clone(),
            second_weights: case.set.second_weights.clone(),
        };
        let mut totals = vec![-1.0; case.totals.len()];
        assert_eq!(
            doors::totals_alone(&set, &mut totals),
            case.refusal,
            "{}",
            case.name
        );
        assert_eq!(bits(&totals), bits(&case.totals), "{}", case.name);
    }
}

/// The tests of tools/carton hold the digests of these cartons; they are made here.
#[test]
fn carton_digests() {
    let tests = include_str!("../../../carton/tests/test_carton.py");
    let mut cartons: Vec<(String, JoinedSet)> = cases()
        .into_iter()
        .map(|case| (case.name.to_lowercase(), case.set))
        .collect();
    let example = changed(|set| {
        set.strengths.flags.fill(1);
        set.strengths.flags[slot(0, 1, 2)] = 0;
    });
    cartons.push(("example".to_string(), example));
    for (name, set) in cartons {
        let line = format!("\"{name}\": \"{}\",", sha256::hex(&encode(&set)));
        assert!(tests.contains(&line), "{line}");
    }
}
