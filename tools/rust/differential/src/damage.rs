//! Faults planted in an accepted set, one function for each refusal number.

use crate::call::{Call, Door, Foreign, Kind};
use crate::numbers::not_finite;
use crate::phases;
use crate::random::Random;
use oracle::sets::*;

/// Plants a fault of each number, the highest first, so that the lowest stands whatever the others became.
pub fn plant(random: &mut Random, call: &mut Call, numbers: &[u8]) {
    let mut order = numbers.to_vec();
    order.sort_unstable();
    for &number in order.iter().rev() {
        let place = match number {
            1 => measure(random, call),
            2 => length(random, call),
            3 => index(random, call),
            4 => infinite(random, call),
            5 => mesh(random, call),
            6 => mass(random, call),
            7 => cutoff(random, call),
            8 => bath(random, call),
            13 => width(random, call),
            _ => phases::break_phase(random, call).to_string(),
        };
        call.planted.push((number, place));
    }
    call.planted.reverse();
    call.kind = if numbers.len() == 1 {
        Kind::OneFault
    } else {
        Kind::TwoFaults
    };
}

/// Hands over a number that names no choice.
pub fn make_foreign(random: &mut Random, call: &mut Call) {
    let number = random.pick(&[2, 3, 127, 128, 254, 255]);
    call.foreign = Some(match call.door {
        Door::Totals => Foreign::Weighting(number),
        // There are three shapes.
        Door::Weights => Foreign::Shape(number.max(3)),
        _ => random.pick(&[
            Foreign::Anchoring(number),
            Foreign::Form(number),
            Foreign::Symmetry(number),
        ]),
    });
    call.kind = Kind::Foreign;
}

// Number 1.

#[derive(Clone, Copy, Debug, PartialEq)]
enum Measure {
    Atoms,
    Supercell,
    First,
    Grid,
    Vectors,
    List,
}

fn measures_of(door: Door) -> &'static [Measure] {
    use Measure::*;
    match door {
        Door::Totals | Door::Weights => &[Atoms, First, Grid],
        Door::List => &[Atoms, Supercell, First, Grid, Vectors, List],
        _ => &[Atoms, Supercell, First, Grid, Vectors],
    }
}

fn measure_mut(call: &mut Call, which: Measure) -> &mut u64 {
    let m = &mut call.set.strengths.measures;
    match which {
        Measure::Atoms => &mut m.atoms,
        Measure::Supercell => &mut m.supercell,
        Measure::First => &mut m.first,
        Measure::Grid => &mut m.grid,
        Measure::Vectors => &mut m.vectors,
        Measure::List => &mut call.list,
    }
}

fn limit(call: &Call, which: Measure) -> u64 {
    match which {
        Measure::Atoms => 8,
        Measure::Supercell => 64,
        Measure::First => 3 * call.set.strengths.measures.atoms,
        Measure::Grid | Measure::Vectors => 65_536,
        Measure::List => 4_096,
    }
}

/// One measure beyond its limits, the tables as they were, or of the lengths that the new measures ask for.
fn measure(random: &mut Random, call: &mut Call) -> String {
    let which = random.pick(measures_of(call.door));
    let limit = limit(call, which);
    let fitting = random.chance(2);
    let good = *measure_mut(call, which);
    let value = if fitting {
        random.pick(&[0, limit + 1, limit + 1])
    } else {
        random.pick(&[
            0,
            limit + 1,
            limit + 1,
            limit * 2 + 1,
            1 << 32,
            (1 << 32) + good,
            1 << 61,
            (1 << 61) + good,
            (1 << 62) + good,
            1 << 63,
            (1 << 63) + good,
            u64::MAX,
            u64::MAX - 1,
        ])
    };
    *measure_mut(call, which) = value;
    if fitting && small_enough(call) {
        fit(call);
    }
    format!("{which:?} {value}")
}

/// A measure beyond its limits with all tables of its lengths, as a carton can hold it: 0, or F above B.
pub fn fitting_measure(random: &mut Random, call: &mut Call) -> String {
    let bands = 3 * call.set.strengths.measures.atoms;
    let (which, value) = random.pick(&[
        (Measure::Atoms, 0),
        (Measure::Supercell, 0),
        (Measure::First, 0),
        (Measure::Grid, 0),
        (Measure::Vectors, 0),
        (Measure::First, bands + 1),
    ]);
    *measure_mut(call, which) = value;
    // Without atoms the other measures may be far beyond their limits and still fit the file.
    if which == Measure::Atoms && random.chance(2) {
        call.set.strengths.measures.first = random.pick(&[1, 1_000, 5_000]);
        call.set.strengths.form = Form::Compact;
        call.set.strengths.measures.supercell = random.pick(&[1, 65, 1_000]);
    }
    if small_enough(call) {
        fit(call);
    }
    format!("{which:?} {value}")
}

/// True if all tables of these measures together are no burden.
fn small_enough(call: &Call) -> bool {
    let m = &call.set.strengths.measures;
    let l = Lengths::of(m, call.set.strengths.form);
    let list = u128::from(call.list);
    let all = [
        l.addresses,
        l.vectors,
        l.multiplicity,
        l.p2s,
        l.s2p,
        l.bands,
        l.frequencies,
        l.eigenvectors,
        l.all_shortest,
        l.nonzero,
        l.force_constants,
        l.slots.saturating_mul(list),
        work_size(m),
        list,
    ];
    sum(&all) < 3_000_000
}

/// Cuts or fills a table to a length, by its own first entry.
fn resize<T: Copy>(table: &mut Vec<T>, length: u128, filler: T) {
    let entry = table.first().copied().unwrap_or(filler);
    table.resize(length as usize, entry);
}

/// Gives every table that the door is handed the length that its measures ask for.
fn fit(call: &mut Call) {
    let set = &mut call.set;
    let t = &mut set.strengths;
    let l = Lengths::of(&t.measures, t.form);
    let slots = l.slots * u128::from(call.list);
    let entries = match call.weighting {
        Weighting::PerSlot => slots,
        Weighting::AtFrequencyPoint => pair_count(t.measures.atoms),
    };
    resize(&mut t.frequencies, l.frequencies, 1.0);
    if call.door.has_flags() {
        resize(&mut t.flags, entries, 0);
    }
    if call.door.has_bands() {
        resize(&mut t.bands, l.bands, 0);
    }
    if call.door.has_strengths_tables() {
        resize(&mut t.addresses, l.addresses, 0);
        resize(&mut t.vectors, l.vectors, 0.0);
        fit_multiplicity(&mut t.multiplicity, l.multiplicity as usize);
        resize(&mut t.p2s, l.p2s, 0);
        resize(&mut t.s2p, l.s2p, 0);
        resize(&mut t.masses, l.masses, 1.0);
        resize(&mut t.eigenvectors, l.eigenvectors, 1.0);
        resize(&mut t.all_shortest, l.all_shortest, 0);
        resize(&mut t.nonzero, l.nonzero, 1);
        resize(&mut t.force_constants, l.force_constants, 1.0);
        resize(&mut call.before.strengths, slots, -1.0);
        resize(&mut call.before.work, work_size(&t.measures), -1.0);
    }
    if call.door == Door::Totals {
        resize(&mut call.read_strengths, l.slots, 1.0);
    }
    if call.door == Door::Weights {
        resize(&mut call.before.first_weights, slots, -1.0);
        resize(&mut call.before.second_weights, slots, -1.0);
        resize(&mut call.before.flags, slots, 1);
    }
    if call.door == Door::List {
        resize(&mut call.triplets, 3 * u128::from(call.list), 0);
    }
    if call.door.has_bath() {
        resize(&mut set.first_weights, entries, 1.0);
        resize(&mut set.second_weights, entries, 1.0);
        resize(&mut call.before.totals, t.measures.first.into(), -1.0);
    }
}

/// Whole entries of (count, start), the new ones as the first.
fn fit_multiplicity(table: &mut Vec<i64>, length: usize) {
    let entry = [
        table.first().copied().unwrap_or(1),
        table.get(1).copied().unwrap_or(0),
    ];
    table.truncate(length);
    while table.len() < length {
        table.extend(entry);
    }
}

// Number 2.

/// Lengths other than the right one, if the table is not empty.
fn mislong<T: Copy>(random: &mut Random, table: &mut Vec<T>, filler: T) {
    let length = table.len();
    let wrong = match random.below(8) {
        0..=2 => length.saturating_sub(1),
        3..=5 => length + 1,
        6 => 0,
        _ => 2 * length,
    };
    // An empty table can only grow.
    let wrong = if wrong == length { length + 1 } else { wrong };
    resize(table, wrong as u128, filler);
}

/// The tables and buffers of the doors of the strengths; the work buffer counts twice.
const LENGTHS: [&str; 16] = [
    "addresses",
    "vectors",
    "multiplicity",
    "p2s",
    "s2p",
    "masses",
    "bands",
    "frequencies",
    "eigenvectors",
    "all-shortest",
    "nonzero",
    "flags",
    "force constants",
    "strengths",
    "work",
    "work",
];

fn length(random: &mut Random, call: &mut Call) -> String {
    let names: Vec<&str> = match call.door {
        Door::Totals => vec![
            "frequencies",
            "flags",
            "strengths read",
            "first weights",
            "second weights",
            "totals",
            "form of the weights",
        ],
        Door::Joined => [
            &LENGTHS[..],
            &["first weights", "second weights", "totals", "form"],
        ]
        .concat(),
        Door::Triplet | Door::List => [&LENGTHS[..], &["triplets", "form"]].concat(),
        Door::Weights => vec![
            "bands",
            "frequencies",
            "first weights",
            "second weights",
            "flags",
        ],
    };
    // A second wrong length goes to another table, lest it mend the first.
    let mut name = random.pick(&names);
    while call.planted.iter().any(|fault| fault.1.ends_with(name)) {
        name = random.pick(&names);
    }
    let work = work_size(&call.set.strengths.measures) as usize;
    let set = &mut call.set;
    let t = &mut set.strengths;
    let before = &mut call.before;
    match name {
        "first weights" if call.door == Door::Weights => {
            mislong(random, &mut before.first_weights, -1.0)
        }
        "second weights" if call.door == Door::Weights => {
            mislong(random, &mut before.second_weights, -1.0)
        }
        "flags" if call.door == Door::Weights => mislong(random, &mut before.flags, 1),
        "addresses" => mislong(random, &mut t.addresses, 0),
        "vectors" => mislong(random, &mut t.vectors, 0.0),
        "multiplicity" => mislong(random, &mut t.multiplicity, 0),
        "p2s" => mislong(random, &mut t.p2s, 0),
        "s2p" => mislong(random, &mut t.s2p, 0),
        "masses" => mislong(random, &mut t.masses, 1.0),
        "bands" => mislong(random, &mut t.bands, 0),
        "frequencies" => mislong(random, &mut t.frequencies, 1.0),
        "eigenvectors" => mislong(random, &mut t.eigenvectors, 1.0),
        "all-shortest" => mislong(random, &mut t.all_shortest, 0),
        "nonzero" => mislong(random, &mut t.nonzero, 1),
        "flags" => mislong(random, &mut t.flags, 0),
        "force constants" => mislong(random, &mut t.force_constants, 1.0),
        "strengths" => mislong(random, &mut before.strengths, -1.0),
        "strengths read" => mislong(random, &mut call.read_strengths, 1.0),
        "totals" => mislong(random, &mut before.totals, -1.0),
        "first weights" => mislong(random, &mut set.first_weights, 1.0),
        "second weights" => mislong(random, &mut set.second_weights, 1.0),
        "work" => {
            let any = random.below(work);
            let short = random.pick(&[work - 1, work - 1, 0, any]);
            resize(&mut before.work, short as u128, -1.0);
        }
        "triplets" if call.door == Door::List => mislong(random, &mut call.triplets, 0),
        "form" if t.measures.atoms != t.measures.supercell => {
            t.form = match t.form {
                Form::Compact => Form::Full,
                Form::Full => Form::Compact,
            }
        }
        "form of the weights" if t.measures.first > 1 => {
            call.weighting = match call.weighting {
                Weighting::PerSlot => Weighting::AtFrequencyPoint,
                Weighting::AtFrequencyPoint => Weighting::PerSlot,
            }
        }
        _ => mislong(random, &mut t.frequencies, 1.0),
    }
    format!("length of {name}")
}

// Number 3.

/// An index outside 0 to count − 1.
fn beyond(random: &mut Random, count: u64) -> i64 {
    let count = count as i64;
    random.pick(&[
        -1,
        -1,
        count,
        count,
        count + 1,
        (1 << 32) + count - 1,
        -(1 << 32),
        i64::MIN,
        i64::MAX,
    ])
}

fn index(random: &mut Random, call: &mut Call) -> String {
    let m = call.set.strengths.measures;
    let names: &[&str] = match call.door {
        Door::Totals => &["triplet"],
        Door::Weights => &["triplet", "bands"],
        _ => &[
            "triplet",
            "p2s",
            "s2p",
            "bands",
            "multiplicity",
            "multiplicity",
        ],
    };
    let name = random.pick(names);
    let t = &mut call.set.strengths;
    match name {
        "triplet" if call.door == Door::List => {
            let place = random.place(call.triplets.len());
            call.triplets[place] = beyond(random, m.grid);
        }
        "triplet" => call.set.triplet[random.below(3)] = beyond(random, m.grid),
        "p2s" => {
            let place = random.place(t.p2s.len());
            t.p2s[place] = beyond(random, m.supercell);
        }
        "s2p" => {
            let place = random.place(t.s2p.len());
            t.s2p[place] = beyond(random, m.supercell);
        }
        "bands" => {
            let place = random.place(t.bands.len());
            t.bands[place] = beyond(random, 3 * m.atoms);
        }
        _ => {
            let place = random.place(t.multiplicity.len() / 2);
            let entry = vectors_beyond(random, m.vectors as i64);
            t.multiplicity[2 * place..][..2].copy_from_slice(&entry);
        }
    }
    format!("index in {name}")
}

/// (count, start) that names no stretch of the vectors; some would if their sum came round.
fn vectors_beyond(random: &mut Random, vectors: i64) -> [i64; 2] {
    let start = random.between(0, vectors - 1);
    random.pick(&[
        [0, start],
        [0, start],
        [0, start],
        [0, 0],
        [-1, start],
        [1, -1],
        [2, -1],
        [vectors + 1, -1],
        [vectors - start + 1, start],
        [vectors + 1, 0],
        [1, vectors],
        [1, i64::MAX],
        [1, i64::MAX],
        [i64::MAX, start + 1],
        [i64::MAX, start + 1],
        [i64::MAX, i64::MAX],
        [i64::MIN, i64::MIN],
        [i64::MIN, start],
        [1, i64::MIN],
        [i64::MAX, i64::MIN],
        [(1 << 32) + 1, start],
        [1, (1 << 32) + start],
    ])
}

// Number 4.

fn infinite(random: &mut Random, call: &mut Call) -> String {
    let x = not_finite(random);
    let names: &[&str] = match call.door {
        Door::Totals => &[
            "frequencies",
            "strengths read",
            "first weights",
            "second weights",
            "cutoff",
            "temperature",
        ],
        Door::Joined => &[
            "vectors",
            "masses",
            "frequencies",
            "eigenvectors",
            "force constants",
            "cutoff",
            "first weights",
            "second weights",
            "temperature",
        ],
        Door::Weights => &["frequencies", "width"],
        _ => &[
            "vectors",
            "masses",
            "frequencies",
            "eigenvectors",
            "force constants",
            "cutoff",
        ],
    };
    let name = random.pick(names);
    let set = &mut call.set;
    let t = &mut set.strengths;
    let table = match name {
        "vectors" => &mut t.vectors,
        "masses" => &mut t.masses,
        "frequencies" => &mut t.frequencies,
        "eigenvectors" => &mut t.eigenvectors,
        "force constants" => &mut t.force_constants,
        "strengths read" => &mut call.read_strengths,
        "first weights" => &mut set.first_weights,
        "second weights" => &mut set.second_weights,
        "cutoff" => {
            t.settings.cutoff = x;
            return format!("{name} {x}");
        }
        "width" => {
            call.shape = with_width(call.shape, x);
            return format!("{name} {x}");
        }
        _ => {
            set.bath.temperature = x;
            return format!("{name} {x}");
        }
    };
    let place = random.place(table.len());
    table[place] = x;
    format!("{name} {x} at {place}")
}

// Numbers 5 to 8.

fn mesh(random: &mut Random, call: &mut Call) -> String {
    let t = &mut call.set.strengths;
    match random.below(3) {
        0 => {
            let place = random.place(t.addresses.len());
            t.addresses[place] = random.pick(&[
                1_048_577,
                -1_048_577,
                (1 << 32) + 1,
                i64::MIN,
                i64::MIN + 1,
                i64::MAX,
            ]);
            format!("address at {place}")
        }
        1 => {
            let place = random.below(3);
            t.mesh[place] =
                random.pick(&[0, 0, -1, 4_097, 4_097, (1 << 32) + 1, i64::MIN, i64::MAX]);
            format!("mesh at {place}")
        }
        _ => {
            let place = random.below(9);
            t.q_matrix[place] = random.pick(&[4_097, -4_097, (1 << 32) + 1, i64::MIN, i64::MAX]);
            format!("q matrix at {place}")
        }
    }
}

fn mass(random: &mut Random, call: &mut Call) -> String {
    let masses = &mut call.set.strengths.masses;
    let place = random.place(masses.len());
    masses[place] = random.pick(&[0.0, -0.0, -1.0, -5e-324, f64::MIN]);
    format!("mass at {place}")
}

fn cutoff(random: &mut Random, call: &mut Call) -> String {
    let x = random.pick(&[-5e-324, -1.0, -0.5, f64::MIN]);
    call.set.strengths.settings.cutoff = x;
    format!("cutoff {x}")
}

fn bath(random: &mut Random, call: &mut Call) -> String {
    let bath = &mut call.set.bath;
    if random.chance(2) {
        bath.weight = random.pick(&[
            0,
            0,
            -1,
            1 << 31,
            (1 << 32) + 1,
            -(1 << 32) + 1,
            i64::MIN,
            i64::MAX,
        ]);
        format!("weight {}", bath.weight)
    } else {
        bath.temperature = random.pick(&[-0.0, -0.0, -1.0, -5e-324, f64::MIN]);
        format!("temperature {}", bath.temperature)
    }
}

// Number 13.

fn with_width(shape: Shape, width: f64) -> Shape {
    match shape {
        Shape::Gaussian(_) => Shape::Gaussian(width),
        Shape::Lorentzian(_) => Shape::Lorentzian(width),
        Shape::Box(_) => Shape::Box(width),
    }
}

fn width(random: &mut Random, call: &mut Call) -> String {
    let x = random.pick(&[0.0, -0.0, -1.0, -5e-324, f64::MIN]);
    call.shape = with_width(call.shape, x);
    format!("width {x}")
}
