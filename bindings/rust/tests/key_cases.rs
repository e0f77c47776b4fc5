//! Document 01's key cases M1 to M11 through the safe functions, every number compared by its bits.

mod common;

use common::{bits, cell_u, Cell, Left};
use wirambolo::*;

struct Case {
    name: &'static str,
    cell: Cell,
    left: Left,
}

/// 0.0 in each slot but those listed.
fn holding(first: usize, x: f64, held: &[(usize, usize, usize)]) -> Vec<f64> {
    let mut strengths = vec![0.0; slots(1, first)];
    for &(b, j, k) in held {
        strengths[slot(1, b, j, k)] = x;
    }
    strengths
}

fn accepted(name: &'static str, cell: Cell, strengths: Vec<f64>, totals: &[f64]) -> Case {
    let mut work = cell.work.clone();
    work[..work_length(1, 1)].fill(0.0);
    let left = Left {
        answer: Ok(()),
        strengths: bits(&strengths),
        totals: bits(totals),
        work: bits(&work),
    };
    Case { name, cell, left }
}

fn refused(name: &'static str, cell: Cell, refusal: Refusal) -> Case {
    let left = cell.untouched(refusal);
    Case { name, cell, left }
}

fn with_bands_0_0(cell: &mut Cell) {
    cell.measures.first = 2;
    cell.bands = vec![0, 0];
    for slots in [
        &mut cell.first_weights,
        &mut cell.second_weights,
        &mut cell.strengths,
    ] {
        slots.truncate(18);
    }
    cell.flags.truncate(18);
    cell.totals.truncate(2);
}

fn cases() -> Vec<Case> {
    let u = cell_u();
    let flagged = u.with(|c| c.flags[slot(1, 0, 1, 2)] = 1);
    let averaged = u.with(|c| c.settings.anchoring = Anchoring::Averaged);
    let at_012 = holding(3, 0.5, &[(0, 1, 2)]);
    let five = [(0, 2, 1), (1, 0, 2), (1, 2, 0), (2, 0, 1), (2, 1, 0)];
    vec![
        accepted("M1", u.clone(), at_012.clone(), &[3.0, 0.0, 0.0]),
        accepted(
            "M2",
            u.with(|c| c.settings.cutoff = 1.0),
            vec![0.0; 27],
            &[0.0; 3],
        ),
        accepted(
            "M3",
            u.with(|c| c.settings.cutoff = 0.75),
            at_012.clone(),
            &[3.0, 0.0, 0.0],
        ),
        accepted(
            "M4",
            flagged.clone(),
            holding(3, -1.0, &[(0, 1, 2)]),
            &[0.0; 3],
        ),
        accepted(
            "M5",
            flagged.with(|c| c.symmetry = Symmetry::Symmetrized),
            holding(3, 0.5 / 6.0, &five),
            &[0.5, 1.0, 1.0],
        ),
        accepted(
            "M6",
            averaged.with(|c| c.shortest[0] = 1),
            at_012,
            &[3.0, 0.0, 0.0],
        ),
        accepted(
            "M7",
            averaged.with(|c| c.constants[5] = 48.0),
            holding(3, 0.5, &[(0, 1, 2), (1, 0, 2), (2, 1, 0)]),
            &[3.0; 3],
        ),
        accepted("M8", u.with(|c| c.nonzero[0] = 0), vec![0.0; 27], &[0.0; 3]),
        accepted(
            "M9",
            u.with(with_bands_0_0),
            holding(2, 0.5, &[(0, 1, 2), (1, 1, 2)]),
            &[3.0; 2],
        ),
        refused("M10", u.with(|c| c.multiplicity[0] = 0), Refusal::Index),
        refused("M11", u.with(|c| c.bath.temperature = -0.0), Refusal::Bath),
    ]
}

#[test]
fn joined() {
    for case in cases() {
        assert_eq!(case.cell.joined(), case.left, "{}", case.name);
    }
}

/// One triplet and a list of one. They have no totals and no bath, so M11 is no case of theirs.
#[test]
fn strengths_alone() {
    for case in cases().iter().filter(|case| case.name != "M11") {
        let left = Left {
            totals: bits(&case.cell.totals),
            ..case.left.clone()
        };
        assert_eq!(case.cell.one_triplet(), left, "{}", case.name);
        assert_eq!(case.cell.list(), left, "{}", case.name);
    }
}

/// Totals alone, of the strengths that the case leaves. It has no multiplicities, so M10 is no case of its own.
#[test]
fn totals_alone() {
    for case in cases().iter().filter(|case| case.name != "M10") {
        let strengths = case.left.strengths.iter().map(|&x| f64::from_bits(x));
        let cell = case.cell.with(|c| c.strengths = strengths.collect());
        let left = Left {
            work: bits(&cell.work),
            ..case.left.clone()
        };
        assert_eq!(cell.totals_alone(Weights::PerSlot), left, "{}", case.name);
    }
}
