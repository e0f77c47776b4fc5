//! What the Rust gives for the closed cases of crates/closed_cases/specs/ClosedCases.antt: the same made-up tables by the
//! same rules, worked by phonors itself; and for those of document 02's weights. Each line is a case and the bits of its answer.

use oracle::common::Cmplx;
use oracle::real_to_reciprocal::{real_to_reciprocal, AtomTriplets};
use oracle::reciprocal_to_normal::{reciprocal_to_normal_squared, R2NScratch};
use oracle::sets::*;
use oracle::{cell_u, doors, weights};

/// Number n of a table of whole numbers from −c to m − 1 − c.
fn made(a: i64, m: i64, c: i64, n: usize) -> i64 {
    n as i64 * a % m - c
}

fn made_over(n: usize, a: i64, m: i64, c: i64, d: f64) -> Vec<f64> {
    (0..n).map(|i| made(a, m, c, i) as f64 / d).collect()
}

fn show(name: &str, numbers: &[f64]) {
    print!("{name}");
    for x in numbers {
        if x.is_nan() {
            print!(" nan");
        } else {
            print!(" {:016x}", x.to_bits());
        }
    }
    println!();
}

fn addresses() -> Vec<i64> {
    (0..9).map(|n| made(4, 7, 3, n)).collect()
}

const MESH: [i64; 3] = [3, 5, 7];
const MATRIX: [i64; 9] = [1, 0, 2, 1, 1, 0, 0, 3, 1];

fn q_at(g: usize) -> [f64; 3] {
    let a = addresses();
    let raw: Vec<f64> = (0..3)
        .map(|c| a[3 * g + c] as f64 / MESH[c] as f64)
        .collect();
    std::array::from_fn(|k| {
        MATRIX[3 * k] as f64 * raw[0]
            + MATRIX[3 * k + 1] as f64 * raw[1]
            + MATRIX[3 * k + 2] as f64 * raw[2]
    })
}

/// Some numbers of the reciprocal force constants of the crystal with 2 atoms and 3 supercell atoms.
fn reciprocal(name: &str, average: bool, full: bool) {
    let rows = if full { 3 } else { 2 };
    let flat = made_over(12, 5, 11, 5, 8.0);
    let svecs: Vec<[f64; 3]> = flat.chunks(3).map(|v| [v[0], v[1], v[2]]).collect();
    let fc3: Vec<f64> = (0..rows * 243)
        .map(|n| made(37, 101, 50, n) as f64)
        .collect();
    let shortest: Vec<i8> = (0..18).map(|n| (n * 7 % 3) as i8).collect();
    let nonzero: Vec<i8> = (0..rows * 9).map(|n| (n * 5 % 4) as i8).collect();
    let tables = AtomTriplets {
        svecs: &svecs,
        num_satom: 3,
        num_patom: 2,
        multiplicity: &[[1, 0], [2, 1], [1, 3], [2, 0], [1, 2], [2, 2]],
        p2s_map: &[2, 0],
        s2p_map: &[0, 0, 2],
        make_r0_average: average,
        all_shortest: &shortest,
        nonzero_indices: &nonzero,
    };
    let mut out = vec![[0.0; 2]; 216];
    real_to_reciprocal(
        &mut out,
        &[q_at(0), q_at(2), q_at(1)],
        &fc3,
        !full,
        &tables,
        false,
    );
    let some: Vec<f64> = PLACES.iter().flat_map(|&t| out[t]).collect();
    show(name, &some);
}

const PLACES: [usize; 6] = [32, 62, 101, 140, 170, 214];

/// One strength of 2 atoms at grid points 1, 0, 2, bands 4, 1, 3.
fn strength2() {
    let pairs = |flat: Vec<f64>| -> Vec<Cmplx> { flat.chunks(2).map(|z| [z[0], z[1]]).collect() };
    let constants = pairs(made_over(432, 29, 61, 30, 7.0));
    let eigenvectors = pairs(made_over(216, 17, 23, 11, 3.0));
    let frequencies = made_over(18, 5, 7, -3, 3.0);
    let leg = |g: usize| {
        (
            &frequencies[6 * g..6 * g + 6],
            &eigenvectors[36 * g..36 * g + 36],
        )
    };
    let mut out = vec![0.0; 36];
    reciprocal_to_normal_squared(
        &mut out,
        &[[0, 1, 3, 9]],
        &constants,
        leg(1).0,
        leg(0).0,
        leg(2).0,
        leg(1).1,
        leg(0).1,
        leg(2).1,
        &[3.0, 5.0],
        &[4],
        2,
        1.0,
        false,
        &mut R2NScratch::new(),
    );
    show("strength2", &out[9..10]);
}

/// One strength of 1 atom: an infinite constant meets a first-leg entry that is zero in both parts.
fn passed1() {
    let mut constants: Vec<Cmplx> = (0..27).map(|n| [made(29, 61, 30, n) as f64, 1.0]).collect();
    constants[4] = [f64::INFINITY, 0.0];
    let eigenvectors = [
        [-0.0, 0.0],
        [1.0, 2.0],
        [0.0, 1.0],
        [2.0, 0.0],
        [0.0, 3.0],
        [1.0, 1.0],
        [1.0, 0.0],
        [2.0, 1.0],
        [3.0, 0.0],
    ];
    let mut out = vec![0.0; 9];
    reciprocal_to_normal_squared(
        &mut out,
        &[[0, 1, 2, 5]],
        &constants,
        &[2.0, 3.0, 4.0],
        &[2.0, 3.0, 4.0],
        &[2.0, 3.0, 4.0],
        &eigenvectors,
        &eigenvectors,
        &eigenvectors,
        &[3.0],
        &[0],
        1,
        1.0,
        false,
        &mut R2NScratch::new(),
    );
    show("passed1", &out[5..6]);
}

/// One strength of 3 atoms: row 0 of the contracted force constants is `NINE`, the third leg's column is all ones, and the first and
/// second leg's are 1 in component 0 alone, so that the amplitude is the dot of nine terms.
fn nine() {
    const NINE: [f64; 9] = [BIG, 1.0, 1.0, 1.0, 2.0, BIG, 1.0, 1.0, 1.0];
    let mut constants: Vec<Cmplx> = vec![[0.0; 2]; 729];
    for (cn, &x) in NINE.iter().enumerate() {
        constants[cn / 3 * 27 + cn % 3][0] = x;
    }
    // component m of band n is number m * 9 + n
    let component0: Vec<Cmplx> = (0..81).map(|i| [if i < 9 { 1.0 } else { 0.0 }, 0.0]).collect();
    let ones = vec![[1.0, 0.0]; 81];
    let frequencies = [1.0; 9];
    let mut out = vec![0.0; 81];
    reciprocal_to_normal_squared(
        &mut out,
        &[[0, 0, 0, 0]],
        &constants,
        &frequencies,
        &frequencies,
        &frequencies,
        &component0,
        &component0,
        &ones,
        &[1.0; 3],
        &[0],
        3,
        0.5,
        false,
        &mut R2NScratch::new(),
    );
    show("nine", &out[..1]);
}

/// 2 ^ 53
const BIG: f64 = 9_007_199_254_740_992.0;

/// The tables of 1 atom and 2 supercell atoms.
fn tables1(
    anchoring: Anchoring,
    symmetry: Symmetry,
    form: Form,
    s2p: [i64; 2],
    flags: &[u8],
) -> StrengthsSet {
    let rows = match form {
        Form::Compact => 1,
        Form::Full => 2,
    };
    StrengthsSet {
        measures: Measures {
            atoms: 1,
            supercell: 2,
            first: 2,
            grid: 3,
            vectors: 3,
        },
        settings: Settings {
            anchoring,
            cutoff: 1.0,
        },
        form,
        symmetry,
        mesh: MESH,
        q_matrix: MATRIX,
        addresses: addresses(),
        vectors: made_over(9, 5, 11, 5, 8.0),
        multiplicity: vec![2, 0, 1, 2],
        p2s: vec![1],
        s2p: s2p.to_vec(),
        masses: vec![3.0],
        bands: vec![2, 0],
        frequencies: made_over(9, 5, 7, -3, 3.0),
        eigenvectors: made_over(54, 17, 23, 11, 4.0),
        all_shortest: vec![1, 0, 0, 1],
        nonzero: (0..rows * 4).map(|n| (n * 5 % 4) as u8).collect(),
        flags: flags.to_vec(),
        force_constants: (0..rows * 108)
            .map(|n| made(37, 101, 50, n) as f64)
            .collect(),
    }
}

fn flags(unflagged: &[usize], slots: usize) -> Vec<u8> {
    (0..slots)
        .map(|n| if unflagged.contains(&n) { 0 } else { 1 })
        .collect()
}

const TEMPERATURE: f64 = 1.5;

fn weights(n: usize) -> (Vec<f64>, Vec<f64>) {
    (made_over(n, 7, 13, 4, 3.0), made_over(n, 11, 17, 6, 3.0))
}

fn joined1(name: &str, anchoring: Anchoring, form: Form, unflagged: &[usize]) {
    let (first_weights, second_weights) = weights(18);
    let set = JoinedSet {
        strengths: tables1(
            anchoring,
            Symmetry::Off,
            form,
            [1, 1],
            &flags(unflagged, 18),
        ),
        triplet: [1, 0, 2],
        bath: Bath {
            weight: 5,
            temperature: TEMPERATURE,
        },
        first_weights,
        second_weights,
    };
    let mut strengths = vec![-1.0; 18];
    let mut totals = vec![-1.0; 2];
    let mut work = vec![-1.0; 220];
    assert_eq!(
        doors::joined(&set, &mut strengths, &mut totals, &mut work),
        0
    );
    show(&format!("{name} strengths"), &strengths);
    show(&format!("{name} totals"), &totals);
}

fn triplet1() {
    let set = tables1(
        Anchoring::Plain,
        Symmetry::Symmetrized,
        Form::Full,
        [0, 1],
        &flags(&[3], 18),
    );
    let mut strengths = vec![-1.0; 18];
    let mut work = vec![-1.0; 220];
    assert_eq!(
        doors::one_triplet(&set, [2, 0, 1], &mut strengths, &mut work),
        0
    );
    show("symmetrized", &strengths);
}

fn list1() {
    let set = tables1(
        Anchoring::Plain,
        Symmetry::Off,
        Form::Compact,
        [0, 1],
        &flags(&[8, 17, 23, 30], 36),
    );
    let mut strengths = vec![-1.0; 36];
    let mut work = vec![-1.0; 220];
    assert_eq!(
        doors::list_of_triplets(&set, 2, &[1, 0, 2, 2, 1, 1], &mut strengths, &mut work),
        0
    );
    show("list", &strengths);
}

fn totals1(name: &str, weighting: Weighting) {
    let entries = match weighting {
        Weighting::PerSlot => 18,
        Weighting::AtFrequencyPoint => 9,
    };
    let (first_weights, second_weights) = weights(entries);
    let set = TotalsSet {
        measures: TotalsMeasures {
            atoms: 1,
            first: 2,
            grid: 3,
        },
        cutoff: 1.0,
        weighting,
        bath: Bath {
            weight: 5,
            temperature: TEMPERATURE,
        },
        triplet: [1, 0, 2],
        frequencies: made_over(9, 5, 7, -3, 3.0),
        strengths: made_over(18, 5, 19, 0, 3.0),
        flags: (0..entries)
            .map(|n| if n % 5 == 3 { 1 } else { 0 })
            .collect(),
        first_weights,
        second_weights,
    };
    let mut totals = vec![-1.0; 2];
    assert_eq!(doors::totals_alone(&set, &mut totals), 0);
    show(name, &totals);
}

/// Cell U at two grid points, with all force constants 16, for demand 3: band 2 of the first point has this frequency and this entry in
/// component 2, and slot (1, 1, 2) this flag.
fn run(name: &str, cutoff: f64, flag: u8, frequency: f64, entry: f64) {
    let mut set = cell_u::cell_u();
    set.strengths.measures.grid = 2;
    set.strengths.settings.cutoff = cutoff;
    set.strengths.mesh = [2, 1, 1];
    set.strengths.addresses = vec![0, 0, 0, 1, 0, 0];
    set.strengths.frequencies = vec![1.0, 0.625, frequency, 0.25, 2.0, 4.0];
    set.strengths.eigenvectors = set.strengths.eigenvectors.repeat(2);
    set.strengths.eigenvectors[16] = entry;
    set.strengths.force_constants = vec![16.0; 27];
    set.strengths.flags[cell_u::slot(1, 1, 2)] = flag;
    set.triplet = [0, 1, 1];
    set.bath.temperature = 1.0;
    set.second_weights = vec![1.0; 27];
    let mut strengths = vec![-1.0; 27];
    let mut totals = vec![-1.0; 3];
    let mut work = vec![-1.0; 203];
    assert_eq!(
        doors::joined(&set, &mut strengths, &mut totals, &mut work),
        0
    );
    show(&format!("{name} strengths"), &strengths);
    show(&format!("{name} totals"), &totals);
}

/// Document 01's cell U with the mesh, addresses and vector that only one leg order refuses.
fn phase(symmetry: Symmetry) -> u8 {
    let mut set = cell_u::cell_u().strengths;
    set.symmetry = symmetry;
    set.measures.grid = 3;
    set.mesh = [1452, 1, 1];
    set.addresses = vec![-290_313, 0, 0, -664_372, 0, 0, 22_204, 0, 0];
    set.vectors = vec![259.864_329_501_758_85, 0.0, 0.0];
    set.frequencies = [1.0, 2.0, 4.0].repeat(3);
    set.eigenvectors = set.eigenvectors.repeat(3);
    doors::one_triplet(&set, [0, 1, 2], &mut [-1.0; 27], &mut [-1.0; 205])
}

/// The least number above zero.
const LEAST: f64 = f64::from_bits(1);

/// Single values of the shapes, at their edges and where something overflows or underflows.
fn shapes() {
    use Shape::*;
    let cases = [
        (Gaussian(0.25), 0.0),
        (Gaussian(0.25), 0.5),
        (Gaussian(0.25), -0.5),
        (Gaussian(0.25), 2.0),
        (Gaussian(0.25), 2.0f64.next_up()),
        (Lorentzian(0.5), 1.5),
        (Lorentzian(0.5), 0.0),
        (Lorentzian(LEAST), 0.0),
        (Box(0.25), -0.25),
        (Box(0.25), -0.25f64.next_up()),
        (Box(0.25), 0.0),
        (Box(f64::MAX), 0.0),
        (Box(LEAST), 0.0),
        (Gaussian(1e-300), 7e-300),
        (Gaussian(LEAST), 0.0),
        (Lorentzian(1e-200), 1.0),
        (Lorentzian(1e160), 0.0),
    ];
    for (shape, d) in cases {
        let name = format!("shape {shape:?} at {d:?} = {:016x}:", d.to_bits());
        show(&name, &[weights::shape_at(shape, d)]);
    }
}

/// First weight, second weight and flag of single slots.
fn slots() {
    use Shape::*;
    let cases = [
        (Lorentzian(0.5), [4.0, 1.0, 2.0]),
        (Gaussian(0.25), [4.0, 1.5, 2.25]),
        (Gaussian(0.25), [4.0, 1.0, 3.0]),
        (Box(LEAST), [0.0, 0.0, 0.0]),
        (Lorentzian(1e-200), [1.0, 2.0, 4.0]),
        (Lorentzian(1e-300), [3.0, 2.0, 4.0]),
        (Lorentzian(1e-300), [1e20, 1.0, 1.0]),
        (Lorentzian(1e160), [4.0, 1.0, 2.0]),
        (Box(f64::MAX), [4.0, 1.0, 2.0]),
    ];
    for (shape, [f0, f1, f2]) in cases {
        let (first, second, flag) = weights::slot(shape, f0, f1, f2);
        show(
            &format!("slot {shape:?} of {f0:?} {f1:?} {f2:?}, flag {flag}:"),
            &[first, second],
        );
    }
}

/// The weights of 1 atom with two first bands at three grid points.
fn weights1(shape: Shape) {
    let set = WeightsSet {
        measures: TotalsMeasures {
            atoms: 1,
            first: 2,
            grid: 3,
        },
        shape,
        triplet: [2, 0, 1],
        bands: vec![2, 0],
        frequencies: vec![1.0, 2.0, 4.0, 1.5, 2.5, 3.5, 3.0, 4.5, 5.0],
    };
    let mut first = vec![-1.0; 18];
    let mut second = vec![-1.0; 18];
    let mut flags = vec![9; 18];
    assert_eq!(
        doors::integration_weights(&set, &mut first, &mut second, &mut flags),
        0
    );
    show(&format!("weights {shape:?} first"), &first);
    show(&format!("weights {shape:?} second"), &second);
    println!("weights {shape:?} flags {flags:?}");
}

fn main() {
    reciprocal("reciprocal plain full", false, true);
    reciprocal("reciprocal averaged full", true, true);
    reciprocal("reciprocal plain compact", false, false);
    reciprocal("reciprocal averaged compact", true, false);
    strength2();
    passed1();
    nine();
    joined1(
        "joined averaged compact",
        Anchoring::Averaged,
        Form::Compact,
        &[2, 5, 8, 9, 14],
    );
    joined1(
        "joined plain full",
        Anchoring::Plain,
        Form::Full,
        &[0, 3, 6, 8, 14, 17],
    );
    triplet1();
    list1();
    totals1("totals at a frequency point", Weighting::AtFrequencyPoint);
    totals1("totals per slot", Weighting::PerSlot);
    run("first run", 0.5, 0, 4.0, 1.0);
    run("second run", 0.75, 1, 5.0, 2.0);
    println!(
        "phase {} {}",
        phase(Symmetry::Off),
        phase(Symmetry::Symmetrized)
    );
    shapes();
    slots();
    for shape in [
        Shape::Gaussian(0.5),
        Shape::Lorentzian(0.5),
        Shape::Box(0.75),
    ] {
        weights1(shape);
    }
}
