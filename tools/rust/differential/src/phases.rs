//! Mesh, q matrix, addresses and vectors, and with them the phases: ordinary ones, ones near ±1,048,576, and ones at the
//! last f64 before it and the first beyond.

use crate::call::{Call, Limit};
use crate::numbers;
use crate::random::Random;
use oracle::refusals::{self, pre_phase, q_vectors, Lent, LEG_ORDERS};
use oracle::sets::*;
use oracle::standins::{within_phase_limit, PHASE_LIMIT};
use std::f64::consts::PI;

fn vector(set: &StrengthsSet, place: usize) -> [f64; 3] {
    std::array::from_fn(|axis| set.vectors[3 * place + axis])
}

/// The vector that the pre-factor of an atom reads.
fn pre_vector(set: &StrengthsSet, atom: usize) -> usize {
    let entry = set.p2s[atom] as usize * set.measures.atoms as usize;
    set.multiplicity[2 * entry + 1] as usize
}

/// Greatest magnitude of the phases of these triplets, in all six orders of the legs; infinity where one is NaN.
fn greatest_phase(set: &StrengthsSet, triplets: &[[i64; 3]]) -> f64 {
    let mut greatest: f64 = 0.0;
    let mut note = |phase: f64| {
        let size = if phase.is_nan() {
            f64::INFINITY
        } else {
            phase.abs()
        };
        greatest = greatest.max(size);
    };
    for &triplet in triplets {
        let q = q_vectors(set, triplet);
        for entry in set.multiplicity.chunks(2) {
            for place in entry[1]..entry[1] + entry[0] {
                let s = vector(set, place as usize);
                for leg in q {
                    note((leg[0] * s[0] + leg[1] * s[1] + leg[2] * s[2]) * 2.0 * PI);
                }
            }
        }
        for atom in 0..set.p2s.len() {
            let s = vector(set, pre_vector(set, atom));
            for order in LEG_ORDERS {
                note(pre_phase(s, order.map(|leg| q[leg])));
            }
        }
    }
    greatest
}

/// Grid and vectors whose products are multiples of an eighth: phases at multiples of π/4, where k is decided.
fn make_eighths(random: &mut Random, set: &mut StrengthsSet) {
    set.mesh = [(); 3].map(|()| random.pick(&[1, 2, 4, 8]));
    for address in &mut set.addresses {
        *address = random.between(-9, 9);
    }
    for x in &mut set.vectors {
        *x = random.pick(&[0.0, 0.0, 0.5, -0.5, 1.0, -1.0, 0.25, 2.0]);
    }
}

/// Mesh, q matrix and addresses: small, random, or at their limits.
fn make_grid(random: &mut Random, set: &mut StrengthsSet) {
    let mesh = random.pick(&[1, 2, 8, 19, 4_096]);
    set.mesh = [(); 3].map(|()| random.between(1, mesh));
    if random.chance(6) {
        set.mesh[random.below(3)] = random.pick(&[1, 4_096]);
    }
    let entry = random.pick(&[1, 1, 2, 5, 4_096]);
    if !random.chance(3) {
        set.q_matrix = [(); 9].map(|()| random.between(-entry, entry));
    }
    if random.chance(10) {
        set.q_matrix[random.below(9)] = random.pick(&[4_096, -4_096]);
    }
    let reach = random.pick(&[0, 3, 20, 20, 1_000, 1_048_576]);
    for address in &mut set.addresses {
        *address = random.between(-reach, reach);
    }
    if random.chance(6) {
        let place = random.place(set.addresses.len());
        set.addresses[place] = random.pick(&[1_048_576, -1_048_576]);
    }
}

/// Makes mesh to vectors with phases up to `part` of the limit where that is asked, ordinary ones otherwise.
pub fn make(random: &mut Random, call: &mut Call, part: Option<f64>) {
    if !call.door.has_strengths_tables() {
        return;
    }
    let triplets = call.worked_triplets();
    let set = &mut call.set.strengths;
    if part.is_none() && random.chance(5) {
        make_eighths(random, set);
        return;
    }
    make_grid(random, set);
    for x in &mut set.vectors {
        *x = match random.below(12) {
            0 => random.pick(&[0.0, -0.0, 0.5, -0.5, 1.0, 0.25]),
            _ => random.unit(),
        };
    }
    let greatest = greatest_phase(set, &triplets);
    let wanted = part.map(|part| part * PHASE_LIMIT);
    let scale = match wanted {
        Some(wanted) if greatest > 0.0 => wanted / greatest,
        None if greatest > PHASE_LIMIT => 0.5 * PHASE_LIMIT / greatest,
        _ => 1.0,
    };
    if scale.is_finite() {
        for x in &mut set.vectors {
            *x *= scale;
        }
    }
    if random.chance(8) {
        spoil_unnamed(random, set);
    }
}

/// Makes all vectors subnormal or nearly so, or half of their components.
pub fn make_least_vectors(random: &mut Random, call: &mut Call) {
    let one_in = random.pick(&[1, 2]);
    for x in &mut call.set.strengths.vectors {
        if random.chance(one_in) {
            *x = numbers::least(random);
        }
    }
    call.limit = Some(Limit::LeastVectors);
}

/// Vectors that no entry names are free of the phases' limit.
fn spoil_unnamed(random: &mut Random, set: &mut StrengthsSet) {
    for place in 0..set.measures.vectors as i64 {
        let named = |entry: &[i64]| entry[1] <= place && place < entry[1] + entry[0];
        if !set.multiplicity.chunks(2).any(named) {
            for axis in 0..3 {
                set.vectors[3 * place as usize + axis] = 1e300 * random.unit();
            }
        }
    }
}

/// Puts one vector to the last f64 before some phase of the set goes beyond the limit, or a few steps from there.
/// True if the set was small and had such a vector.
pub fn put_at_the_end(random: &mut Random, call: &mut Call) -> bool {
    if !call.door.has_strengths_tables() {
        return false;
    }
    let triplets = call.worked_triplets();
    let set = &mut call.set.strengths;
    if set
        .multiplicity
        .chunks(2)
        .map(|entry| entry[0])
        .sum::<i64>()
        * call.list as i64
        > 3_000
    {
        return false;
    }
    let place = if random.chance(3) {
        let entry = random.below(set.multiplicity.len() / 2);
        (set.multiplicity[2 * entry + 1] + random.between(0, set.multiplicity[2 * entry] - 1))
            as usize
    } else {
        pre_vector(set, random.below(set.p2s.len()))
    };
    if random.chance(2) {
        // Large addresses of one sign: the pre-phase, a sum of three, comes to the limit before any leg does.
        let sign = random.pick(&[1, -1]);
        for address in &mut set.addresses {
            *address = sign * random.between(1, 1_048_576);
        }
    }
    let axis = random.below(3);
    for other in 0..3 {
        set.vectors[3 * place + other] = 0.0;
    }
    let (mut low, mut high) = (0.0f64, 1e15f64);
    let mut is_beyond = |x: f64| {
        set.vectors[3 * place + axis] = x;
        !within_phase_limit(greatest_phase(set, &triplets))
    };
    if is_beyond(low) || !is_beyond(high) {
        return false;
    }
    while low.to_bits() + 1 < high.to_bits() {
        let middle = f64::from_bits((low.to_bits() + high.to_bits()) / 2);
        if is_beyond(middle) {
            high = middle;
        } else {
            low = middle;
        }
    }
    let steps = random.pick(&[0, 0, 0, 1, 1, 1, 2, 3, -1, -2]);
    let x = f64::from_bits(low.to_bits().saturating_add_signed(steps));
    set.vectors[3 * place + axis] = if random.chance(2) { -x } else { x };
    true
}

/// Puts a pre-phase beyond the limit in some orders of the legs and not in the first, where random tries find one.
pub fn put_beyond_in_one_order(random: &mut Random, call: &mut Call) -> bool {
    if !call.door.has_strengths_tables() {
        return false;
    }
    let triplets = call.worked_triplets();
    let triplet = triplets[random.below(triplets.len())];
    let set = &mut call.set.strengths;
    let place = pre_vector(set, random.below(set.p2s.len()));
    unit_grid(set);
    set.vectors.fill(0.0);
    for _ in 0..300 {
        set.mesh[0] = random.between(1, 4_096);
        set.addresses.fill(0);
        let sign = random.pick(&[1, -1]);
        for point in triplet {
            set.addresses[3 * point as usize] = sign * random.between(1, 1_048_576);
        }
        let q = q_vectors(set, triplet);
        let near = PHASE_LIMIT / (2.0 * PI) / (q[0][0] + q[1][0] + q[2][0]);
        let x = f64::from_bits(near.to_bits().wrapping_add_signed(random.between(-2, 2)));
        let within = LEG_ORDERS
            .map(|order| within_phase_limit(pre_phase([x, 0.0, 0.0], order.map(|leg| q[leg]))));
        if within[0] && within.contains(&false) {
            set.vectors[3 * place] = x;
            return true;
        }
    }
    false
}

/// Makes a phase of the set lie beyond the limit; says how. The tables must be whole and their indices good.
pub fn break_phase(random: &mut Random, call: &mut Call) -> &'static str {
    let how = match random.below(8) {
        0 => in_one_leg(random, call, 0, "phase of the first leg only"),
        1 => {
            let leg = random.below(3);
            in_one_leg(random, call, leg, "phase of one leg")
        }
        2 => in_pre_factor(random, call),
        3 => not_a_number(random, call),
        4 => in_last_vector(random, call),
        5 => at_the_end(random, call),
        6 => in_no_image(random, call),
        _ => None,
    };
    match how {
        Some(how) if refused_for_a_phase(call) => how,
        _ => in_every_vector(random, call),
    }
}

/// The oracle's own word on the set with buffers of the right length, one triplet at a time.
fn refused_for_a_phase(call: &Call) -> bool {
    let mut one = call.set.strengths.clone();
    let slots = slot_count(one.measures.atoms, one.measures.first) as usize;
    one.flags.truncate(slots);
    let lent = Lent {
        strengths: slots,
        work: work_size(&one.measures) as usize,
    };
    call.worked_triplets()
        .into_iter()
        .any(|triplet| refusals::one_triplet(&one, triplet, &lent) == 9)
}

fn unit_grid(set: &mut StrengthsSet) {
    set.mesh = [1; 3];
    set.q_matrix = [1, 0, 0, 0, 1, 0, 0, 0, 1];
}

/// All addresses and vectors 0 but those of one grid point and one vector.
fn alone(call: &mut Call, point: i64, address: i64, place: usize, x: f64) {
    let set = &mut call.set.strengths;
    unit_grid(set);
    set.addresses.fill(0);
    set.vectors.fill(0.0);
    set.addresses[3 * point as usize] = address;
    set.vectors[3 * place] = x;
}

fn some_vector(random: &mut Random, set: &StrengthsSet) -> usize {
    let entry = random.below(set.multiplicity.len() / 2);
    (set.multiplicity[2 * entry + 1] + random.between(0, set.multiplicity[2 * entry] - 1)) as usize
}

/// Only one leg's grid point lies off the origin; in a list only the last triplet has it.
fn in_one_leg(
    random: &mut Random,
    call: &mut Call,
    leg: usize,
    how: &'static str,
) -> Option<&'static str> {
    let grid = call.set.strengths.measures.grid as i64;
    if grid < 2 {
        return None;
    }
    let far = random.between(0, grid - 1);
    let near = (far + 1) % grid;
    let mut last = [near; 3];
    last[leg] = far;
    if call.triplets.is_empty() {
        call.set.triplet = last;
    } else {
        let end = call.triplets.len() - 3;
        for point in &mut call.triplets[..end] {
            if *point == far {
                *point = near;
            }
        }
        call.triplets[end..].copy_from_slice(&last);
    }
    let set = &call.set.strengths;
    let pre: Vec<usize> = (0..set.p2s.len())
        .map(|atom| pre_vector(set, atom))
        .collect();
    // A vector that no pre-factor reads, if a few tries find one.
    let mut place = some_vector(random, set);
    for _ in 0..6 {
        if pre.contains(&place) {
            place = some_vector(random, set);
        }
    }
    let x = random.pick(&[166_887.0, -166_887.0, 1e9, 1e300]);
    alone(call, far, 1, place, x);
    Some(how)
}

/// Each leg is within the limit, their sum is not.
fn in_pre_factor(random: &mut Random, call: &mut Call) -> Option<&'static str> {
    let set = &mut call.set.strengths;
    let place = pre_vector(set, random.below(set.p2s.len()));
    unit_grid(set);
    set.vectors.fill(0.0);
    for address in &mut set.addresses {
        *address = 1;
    }
    set.vectors[3 * place] = random.pick(&[1.0, -1.0]) * 0.4 * PHASE_LIMIT / (2.0 * PI);
    Some("phase of a pre-factor only")
}

/// Infinity less infinity.
fn not_a_number(random: &mut Random, call: &mut Call) -> Option<&'static str> {
    let set = &mut call.set.strengths;
    unit_grid(set);
    for (place, address) in set.addresses.iter_mut().enumerate() {
        *address = [4, -4, 0][place % 3];
    }
    let place = some_vector(random, set);
    set.vectors[3 * place..][..3].copy_from_slice(&[f64::MAX, f64::MAX, 0.0]);
    Some("phase not a number")
}

/// The last vector of an entry of several.
fn in_last_vector(random: &mut Random, call: &mut Call) -> Option<&'static str> {
    let set = &call.set.strengths;
    let entries: Vec<&[i64]> = set.multiplicity.chunks(2).filter(|e| e[0] > 1).collect();
    if entries.is_empty() {
        return None;
    }
    let entry = entries[random.below(entries.len())];
    let place = (entry[0] + entry[1] - 1) as usize;
    let point = call.worked_triplets()[0][random.below(3)];
    alone(call, point, 1, place, 166_887.0);
    Some("phase of an entry's last vector")
}

/// The one entry that names the last vector belongs to a supercell atom that is no atom's image.
fn in_no_image(random: &mut Random, call: &mut Call) -> Option<&'static str> {
    let set = &mut call.set.strengths;
    let (supercell, atoms) = (set.measures.supercell as i64, set.measures.atoms as usize);
    let nobody = (0..supercell).find(|atom| !set.p2s.contains(atom))?;
    let last = set.measures.vectors as i64 - 1;
    if last == 0 {
        return None;
    }
    for entry in set.multiplicity.chunks_mut(2) {
        entry[1] = entry[1].min(last - 1);
        entry[0] = entry[0].min(last - entry[1]);
    }
    set.s2p[nobody as usize] = nobody;
    let entry = nobody as usize * atoms + random.below(atoms);
    set.multiplicity[2 * entry..][..2].copy_from_slice(&[1, last]);
    let point = call.worked_triplets()[0][random.below(3)];
    alone(call, point, 1, last as usize, 166_887.0);
    Some("phase of an atom that is no image")
}

fn at_the_end(random: &mut Random, call: &mut Call) -> Option<&'static str> {
    make(random, call, None);
    put_at_the_end(random, call).then_some("phase just beyond the end")
}

fn in_every_vector(random: &mut Random, call: &mut Call) -> &'static str {
    let set = &mut call.set.strengths;
    unit_grid(set);
    set.addresses.fill(1);
    set.vectors.fill(random.pick(&[166_887.0, -1e7, 1e300]));
    "phase of every vector"
}
