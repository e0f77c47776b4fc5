//! Refusals 1 to 9: each at its edges, the lowest where several hold, and everything left as found.

use oracle::cell_u::cell_u;
use oracle::doors;
use oracle::sets::*;

const WORK: usize = 203;

/// Lengths of the slices lent for writing.
struct Lent {
    strengths: usize,
    totals: usize,
    work: usize,
}

const LENT: Lent = Lent {
    strengths: 27,
    totals: 3,
    work: WORK,
};

/// The joined door's answer; a refused call must leave everything as found.
fn joined_lent(set: &JoinedSet, lent: &Lent) -> u8 {
    let mut strengths = vec![-1.0; lent.strengths];
    let mut totals = vec![-1.0; lent.totals];
    let mut work = vec![-1.0; lent.work];
    let refusal = doors::joined(set, &mut strengths, &mut totals, &mut work);
    if refusal != 0 {
        assert!([strengths, totals, work]
            .concat()
            .iter()
            .all(|&x| x == -1.0));
    }
    refusal
}

fn joined(change: impl FnOnce(&mut JoinedSet)) -> u8 {
    let mut set = cell_u();
    change(&mut set);
    joined_lent(&set, &LENT)
}

/// The joined door's answer to a change of the tables.
fn tables(change: impl FnOnce(&mut StrengthsSet)) -> u8 {
    joined(|set| change(&mut set.strengths))
}

fn shorten<T>(table: &mut Vec<T>) {
    table.pop();
}

#[test]
fn measures_are_1() {
    assert_eq!(joined(|_| ()), 0);
    for beyond in [0, 9, u64::MAX] {
        assert_eq!(tables(|t| t.measures.atoms = beyond), 1);
    }
    for beyond in [0, 65, u64::MAX] {
        assert_eq!(tables(|t| t.measures.supercell = beyond), 1);
    }
    for beyond in [0, 4, u64::MAX] {
        assert_eq!(tables(|t| t.measures.first = beyond), 1);
    }
    for beyond in [0, 65_537, u64::MAX] {
        assert_eq!(tables(|t| t.measures.grid = beyond), 1);
        assert_eq!(tables(|t| t.measures.vectors = beyond), 1);
    }
    // F within B, and every measure at its upper limit, only meet the lengths.
    assert_eq!(tables(|t| t.measures.first = 2), 2);
    let most = Measures {
        atoms: 8,
        supercell: 64,
        first: 24,
        grid: 65_536,
        vectors: 65_536,
    };
    assert_eq!(tables(|t| t.measures = most), 2);
}

#[test]
fn lengths_of_tables_are_2() {
    let changes: [fn(&mut JoinedSet); 15] = [
        |set| shorten(&mut set.strengths.addresses),
        |set| shorten(&mut set.strengths.vectors),
        |set| shorten(&mut set.strengths.multiplicity),
        |set| shorten(&mut set.strengths.p2s),
        |set| shorten(&mut set.strengths.s2p),
        |set| shorten(&mut set.strengths.masses),
        |set| shorten(&mut set.strengths.bands),
        |set| shorten(&mut set.strengths.frequencies),
        |set| shorten(&mut set.strengths.eigenvectors),
        |set| shorten(&mut set.strengths.all_shortest),
        |set| shorten(&mut set.strengths.nonzero),
        |set| shorten(&mut set.strengths.flags),
        |set| shorten(&mut set.strengths.force_constants),
        |set| shorten(&mut set.first_weights),
        |set| shorten(&mut set.second_weights),
    ];
    for change in changes {
        assert_eq!(joined(change), 2);
    }
    assert_eq!(tables(|t| t.addresses.extend([0; 3])), 2);
    assert_eq!(tables(|t| t.nonzero.push(1)), 2);
    // Full force constants have a row for each supercell atom.
    let two_atoms = |t: &mut StrengthsSet| {
        t.measures.supercell = 2;
        t.multiplicity = vec![1, 0, 1, 0];
        t.s2p = vec![0, 0];
        t.all_shortest = vec![0; 4];
        t.nonzero = vec![1; 4];
        t.force_constants = vec![0.0; 108];
    };
    let set = |form: Form| {
        let mut set = cell_u();
        two_atoms(&mut set.strengths);
        set.strengths.form = form;
        set
    };
    let lent = Lent { work: 209, ..LENT };
    assert_eq!(joined_lent(&set(Form::Compact), &lent), 0);
    assert_eq!(joined_lent(&set(Form::Full), &lent), 2);
}

#[test]
fn lengths_of_lent_slices_are_2() {
    let set = cell_u();
    assert_eq!(joined_lent(&set, &Lent { work: 202, ..LENT }), 2);
    assert_eq!(joined_lent(&set, &Lent { work: 0, ..LENT }), 2);
    assert_eq!(joined_lent(&set, &LENT), 0);
    assert_eq!(
        joined_lent(
            &set,
            &Lent {
                work: 1_000,
                ..LENT
            }
        ),
        0
    );
    for strengths in [0, 26, 28] {
        assert_eq!(joined_lent(&set, &Lent { strengths, ..LENT }), 2);
    }
    for totals in [0, 2, 4] {
        assert_eq!(joined_lent(&set, &Lent { totals, ..LENT }), 2);
    }
}

#[test]
fn indices_are_3() {
    for index in [-1, 1, i64::MIN, i64::MAX] {
        for place in 0..3 {
            assert_eq!(joined(|set| set.triplet[place] = index), 3);
        }
        assert_eq!(tables(|t| t.p2s[0] = index), 3);
        assert_eq!(tables(|t| t.s2p[0] = index), 3);
    }
    for band in [-1, 3, i64::MIN, i64::MAX] {
        assert_eq!(tables(|t| t.bands[2] = band), 3);
    }
    for (count, start) in [(0, 0), (-1, 0), (-1, 2), (2, 0), (1, 1), (1, -1), (2, -1)] {
        assert_eq!(tables(|t| t.multiplicity = vec![count, start]), 3);
    }
    // A wrapped sum would be small.
    for (count, start) in [(i64::MAX, i64::MAX), (1, i64::MAX), (i64::MAX, 1)] {
        assert_eq!(tables(|t| t.multiplicity = vec![count, start]), 3);
    }
}

#[test]
fn not_finite_is_4() {
    for x in [
        f64::NAN,
        -f64::NAN,
        f64::INFINITY,
        f64::NEG_INFINITY,
        f64::from_bits(0x7FF0_0000_0000_0001),
    ] {
        assert_eq!(tables(|t| t.vectors[2] = x), 4);
        assert_eq!(tables(|t| t.masses[0] = x), 4);
        assert_eq!(tables(|t| t.frequencies[2] = x), 4);
        assert_eq!(tables(|t| t.eigenvectors[17] = x), 4);
        assert_eq!(tables(|t| t.settings.cutoff = x), 4);
        assert_eq!(joined(|set| set.second_weights[26] = x), 4);
        assert_eq!(joined(|set| set.bath.temperature = x), 4);
        // Where the work reads nothing: a flagged slot's weight, a force constant behind a nonzero of 0.
        let flagged = |set: &mut JoinedSet| {
            set.strengths.flags = vec![1; 27];
            set.first_weights[0] = x;
        };
        assert_eq!(joined(flagged), 4);
        let passed = |t: &mut StrengthsSet| {
            t.nonzero[0] = 0;
            t.force_constants[0] = x;
        };
        assert_eq!(tables(passed), 4);
    }
}

#[test]
fn mesh_is_5() {
    for address in [-1_048_577, 1_048_577, i64::MIN, i64::MAX] {
        assert_eq!(tables(|t| t.addresses[1] = address), 5);
    }
    for size in [0, -1, 4_097, i64::MIN, i64::MAX] {
        assert_eq!(tables(|t| t.mesh[2] = size), 5);
    }
    for entry in [-4_097, 4_097, i64::MIN, i64::MAX] {
        assert_eq!(tables(|t| t.q_matrix[3] = entry), 5);
    }
    assert_eq!(tables(|t| t.addresses = vec![-1_048_576, 1_048_576, 0]), 0);
    assert_eq!(tables(|t| t.mesh = [4_096, 1, 4_096]), 0);
    assert_eq!(
        tables(|t| t.q_matrix = [-4_096, 4_096, 0, 0, 1, 0, 0, 0, 1]),
        0
    );
}

#[test]
fn mass_cutoff_and_bath_are_6_7_and_8() {
    for mass in [0.0, -0.0, -1.0, -f64::MIN_POSITIVE] {
        assert_eq!(tables(|t| t.masses[0] = mass), 6);
    }
    assert_eq!(tables(|t| t.masses[0] = f64::from_bits(1)), 0);
    for cutoff in [-f64::from_bits(1), -1.0] {
        assert_eq!(tables(|t| t.settings.cutoff = cutoff), 7);
    }
    assert_eq!(tables(|t| t.settings.cutoff = -0.0), 0);
    for weight in [0, -1, 2_147_483_648, (1 << 32) + 1, i64::MIN, i64::MAX] {
        assert_eq!(joined(|set| set.bath.weight = weight), 8);
    }
    for temperature in [-0.0, -1.0] {
        assert_eq!(joined(|set| set.bath.temperature = temperature), 8);
    }
    assert_eq!(
        joined(|set| set.bath = Bath {
            weight: 2_147_483_647,
            temperature: f64::MAX
        }),
        0
    );
}

#[test]
fn phases_are_9() {
    let far = |t: &mut StrengthsSet| {
        t.addresses[0] = 1;
        t.vectors[0] = 166_887.0;
    };
    assert_eq!(tables(far), 9);
    // Also with nothing to work; not for a vector that no entry names.
    let idle = |t: &mut StrengthsSet| {
        far(t);
        t.flags = vec![1; 27];
        t.nonzero = vec![0];
    };
    assert_eq!(tables(idle), 9);
    let unnamed = |t: &mut StrengthsSet| {
        far(t);
        t.measures.vectors = 2;
        t.vectors.extend([0.0; 3]);
        t.multiplicity = vec![1, 1];
    };
    assert_eq!(tables(unnamed), 0);
    // The products overflow to infinities of both signs: the phase is NaN.
    let overflow = |t: &mut StrengthsSet| {
        t.addresses = vec![1_048_576, -1_048_576, 0];
        t.vectors = vec![f64::MAX, f64::MAX, 0.0];
    };
    assert_eq!(tables(overflow), 9);
}

#[test]
fn lowest_is_given() {
    let changes: [fn(&mut JoinedSet); 9] = [
        |set| set.strengths.measures.grid = 0,
        |set| shorten(&mut set.second_weights),
        |set| set.strengths.bands[2] = 3,
        |set| set.second_weights[0] = f64::NAN,
        |set| set.strengths.q_matrix[0] = 5_000,
        |set| set.strengths.masses[0] = 0.0,
        |set| set.strengths.settings.cutoff = -1.0,
        |set| set.bath.weight = 0,
        |set| {
            set.strengths.addresses[0] = 1_048_576;
            set.strengths.vectors[0] = 10.0;
        },
    ];
    for lowest in 0..9 {
        let mut set = cell_u();
        for change in changes[lowest..].iter().rev() {
            change(&mut set);
        }
        assert_eq!(joined_lent(&set, &LENT), lowest as u8 + 1);
    }
}

/// A list of two triplets of cell U.
fn list(change: impl FnOnce(&mut StrengthsSet, &mut u64, &mut Vec<i64>)) -> u8 {
    let mut set = cell_u().strengths;
    set.flags = vec![0; 54];
    let (mut count, mut triplets) = (2, vec![0; 6]);
    change(&mut set, &mut count, &mut triplets);
    let (mut strengths, mut work) = (vec![-1.0; 54], vec![-1.0; WORK]);
    let refusal = doors::list_of_triplets(&set, count, &triplets, &mut strengths, &mut work);
    if refusal != 0 {
        assert!([strengths, work].concat().iter().all(|&x| x == -1.0));
    }
    refusal
}

#[test]
fn list_door_tests_the_whole_list() {
    assert_eq!(list(|_, _, _| ()), 0);
    for beyond in [0, 4_097, u64::MAX] {
        assert_eq!(list(|_, count, _| *count = beyond), 1);
    }
    assert_eq!(list(|_, count, _| *count = 1), 2);
    assert_eq!(list(|_, _, triplets| shorten(triplets)), 2);
    assert_eq!(list(|set, _, _| set.flags = vec![0; 27]), 2);
    assert_eq!(list(|_, _, triplets| triplets[5] = 1), 3);
    // Only the second triplet's grid point has a phase beyond the limit.
    let second_far = |set: &mut StrengthsSet, far: i64| {
        set.measures.grid = 2;
        set.addresses = vec![0, 0, 0, far, 0, 0];
        set.vectors[0] = 166_887.0;
        set.frequencies = set.frequencies.repeat(2);
        set.eigenvectors = set.eigenvectors.repeat(2);
    };
    assert_eq!(
        list(|set, _, triplets| (second_far(set, 1), triplets[5] = 1).0),
        9
    );
    assert_eq!(list(|set, _, _| second_far(set, 1)), 0);
}

fn totals_u() -> TotalsSet {
    let u = cell_u();
    TotalsSet {
        measures: TotalsMeasures {
            atoms: 1,
            first: 3,
            grid: 1,
        },
        cutoff: 0.5,
        weighting: Weighting::PerSlot,
        bath: u.bath,
        triplet: u.triplet,
        frequencies: u.strengths.frequencies,
        strengths: vec![0.5; 27],
        flags: u.strengths.flags,
        first_weights: u.first_weights,
        second_weights: u.second_weights,
    }
}

fn totals(change: impl FnOnce(&mut TotalsSet)) -> u8 {
    let mut set = totals_u();
    change(&mut set);
    let mut totals = vec![-1.0; 3];
    let refusal = doors::totals_alone(&set, &mut totals);
    assert!(refusal == 0 || totals == [-1.0; 3]);
    refusal
}

#[test]
fn totals_door_refuses() {
    assert_eq!(totals(|_| ()), 0);
    assert_eq!(totals(|set| set.measures.atoms = 9), 1);
    assert_eq!(totals(|set| set.measures.first = 4), 1);
    assert_eq!(totals(|set| set.measures.grid = 65_537), 1);
    assert_eq!(totals(|set| shorten(&mut set.strengths)), 2);
    assert_eq!(totals(|set| set.measures.grid = 2), 2);
    assert_eq!(doors::totals_alone(&totals_u(), &mut [-1.0; 2]), 2);
    assert_eq!(totals(|set| set.triplet[0] = 1), 3);
    // Strengths are read here, so a flagged slot's NaN counts.
    let flagged_nan = |set: &mut TotalsSet| {
        set.flags[4] = 1;
        set.strengths[4] = f64::NAN;
    };
    assert_eq!(totals(flagged_nan), 4);
    assert_eq!(totals(|set| set.cutoff = -1.0), 7);
    assert_eq!(totals(|set| set.bath.temperature = -0.0), 8);
}

#[test]
fn totals_at_a_frequency_point_share_tables_of_nine() {
    let at_point = |set: &mut TotalsSet| set.weighting = Weighting::AtFrequencyPoint;
    let nine = |set: &mut TotalsSet| {
        at_point(set);
        set.flags.truncate(9);
        set.first_weights.truncate(9);
        set.second_weights.truncate(9);
    };
    assert_eq!(totals(at_point), 2);
    assert_eq!(totals(nine), 0);
    assert_eq!(totals(|set| (nine(set), set.flags.push(0)).0), 2);
    assert_eq!(totals(|set| (nine(set), set.strengths.truncate(9)).0), 2);
}
