//! Refusal 9 against the phases that the source really asks for.

use super::*;
use crate::cell_u::cell_u;
use crate::doors::SourceTables;
use crate::random::Random;
use crate::standins::{record, PHASE_LIMIT};

/// Number 9 by its condition, compared with what the source meets when it works the set all the same.
fn phases_agree(set: &StrengthsSet, triplet: [i64; 3]) -> bool {
    let slots = slot_count(set.measures.atoms, set.measures.first);
    record::take_beyond();
    SourceTables::of(set).work_triplet(triplet, &mut vec![0.0; slots as usize]);
    let met = record::take_beyond();
    assert_eq!(phases_beyond(set, &[triplet]), met, "{set:?}");
    met
}

#[test]
fn phases_are_those_of_the_source() {
    let mut random = Random(0x9E37_79B9_7F4A_7C15);
    let mut beyond = 0;
    for round in 0..6_000 {
        let reach = [1e2, 3e3, 1e4, 1e5, 1e307][round % 5];
        let set = random.strengths_set(reach);
        let triplet = random.triplet(set.measures.grid);
        beyond += usize::from(phases_agree(&set, triplet));
    }
    assert!(beyond > 500 && beyond < 5_500, "{beyond}");
}

/// Cell U with three grid points on a line and one vector along it.
fn on_a_line(mesh: i64, addresses: [i64; 3], vector: f64) -> StrengthsSet {
    let mut set = cell_u().strengths;
    set.measures.grid = 3;
    set.mesh = [mesh, 1, 1];
    set.addresses = addresses.iter().flat_map(|&x| [x, 0, 0]).collect();
    set.vectors = vec![vector, 0.0, 0.0];
    set.frequencies = [1.0, 2.0, 4.0].repeat(3);
    set.eigenvectors = set.eigenvectors.repeat(3);
    set
}

#[test]
fn pre_phases_at_the_limit_are_those_of_the_source() {
    let mut random = Random(0xD1B5_4A32_D192_ED03);
    let mut one_order_only = 0;
    for _ in 0..20_000 {
        let mesh = random.between(1, 4_096);
        let addresses = [(); 3].map(|()| random.between(1, 1_048_576));
        let sum = addresses.iter().sum::<i64>() as f64 / mesh as f64;
        let near = PHASE_LIMIT / (2.0 * PI) / sum;
        let vector = f64::from_bits(near.to_bits().wrapping_add_signed(random.between(-3, 3)));
        let mut set = on_a_line(mesh, addresses, vector);
        let off = phases_agree(&set, [0, 1, 2]);
        set.symmetry = Symmetry::Symmetrized;
        let on = phases_agree(&set, [0, 1, 2]);
        assert!(on || !off);
        one_order_only += usize::from(on && !off);
    }
    assert!(one_order_only > 0);
}

#[test]
fn one_order_alone_can_refuse() {
    let mut set = on_a_line(1452, [-290_313, -664_372, 22_204], 259.864_329_501_758_85);
    let lent = Lent {
        strengths: 27,
        work: 203,
    };
    assert_eq!(one_triplet(&set, [0, 1, 2], &lent), 0);
    set.symmetry = Symmetry::Symmetrized;
    assert_eq!(one_triplet(&set, [0, 1, 2], &lent), 9);
}

#[test]
fn limit_itself_is_accepted() {
    // q = 1: the phase is the vector times 2π, rounded.
    let (mut low, mut high) = (166_886.0f64, 166_887.0f64);
    while low.next_up() < high {
        let middle = low + (high - low) / 2.0;
        if middle * 2.0 * PI <= PHASE_LIMIT {
            low = middle;
        } else {
            high = middle;
        }
    }
    for (vector, beyond) in [(low, false), (-low, false), (high, true), (-high, true)] {
        assert_eq!(
            phases_agree(&on_a_line(1, [1, 0, 0], vector), [0, 1, 2]),
            beyond
        );
    }
}
