//! The root, the exponential, the sine, the cosine and the occupation in plain f64 arithmetic, written from document 01,
//! compared bit for bit with the proved library (any NaN equals any NaN). The root's oracle is f64::sqrt.
//!
//! With no argument it compares, writes a line for each function, and ends with status 1 where any answer differs.
//! With the argument `list` it writes a fixed choice of the same points with their answers, for crates/standins_replay.
use std::f64::consts::{FRAC_PI_2, LN_2};

#[link(name = "standins_c", kind = "static")]
extern "C" {
    fn standins_root(x: f64) -> f64;
    fn standins_exp(x: f64) -> f64;
    fn standins_sin(x: f64) -> f64;
    fn standins_cos(x: f64) -> f64;
    fn standins_bose_einstein(x: f64, temperature: f64) -> f64;
}

// ---- document 01, each operation rounded once

fn bits(n: u64) -> f64 {
    f64::from_bits(n)
}

/// A NaN below 0, which is outside the domain.
fn exp(x: f64) -> f64 {
    if x > 709.0 {
        return f64::INFINITY;
    }
    if !(x >= 0.0) {
        return f64::NAN;
    }
    let k = (x * bits(0x3FF71547652B82FE)).trunc();
    let r = (x - k * bits(0x3FE62E42FEE00000)) - k * bits(0x3DEA39EF35793C76);
    let mut p = 1.0;
    for n in (1..=18).rev() {
        p = 1.0 + p * (r / f64::from(n));
    }
    let mut power = 1.0;
    for _ in 0..k as u32 {
        power *= 2.0;
    }
    p * power
}

/// The sine and the cosine; NaNs beyond 1,048,576, which is outside the domain.
fn sin_cos(x: f64) -> (f64, f64) {
    if !(x.abs() <= 1048576.0) {
        return (f64::NAN, f64::NAN);
    }
    let k = (x * bits(0x3FE45F306DC9C883) + 0.5).floor();
    let r = ((x - k * bits(0x3FF921FB54400000)) - k * bits(0x3DD0B4611A600000)) - k * bits(0x3BA3198A2E037073);
    let z = r * r;
    let mut p = 1.0;
    let mut c = 1.0;
    for n in (1..=9).rev() {
        p = 1.0 - p * (z / f64::from(2 * n * (2 * n + 1)));
        c = 1.0 - c * (z / f64::from((2 * n - 1) * 2 * n));
    }
    let s = r * p;
    match (k as i64).rem_euclid(4) {
        0 => (s, c),
        1 => (c, -s),
        2 => (-s, -c),
        _ => (-c, s),
    }
}

fn bose_einstein(x: f64, temperature: f64) -> f64 {
    1.0 / (exp(x / temperature) - 1.0)
}

// ---- the points, in groups, so that the list can take as many from each

struct Random(u64);

impl Random {
    fn next(&mut self) -> u64 {
        self.0 ^= self.0 << 13;
        self.0 ^= self.0 >> 7;
        self.0 ^= self.0 << 17;
        self.0
    }

    /// From 0 to 1.
    fn unit(&mut self) -> f64 {
        (self.next() >> 11) as f64 / (1u64 << 53) as f64
    }
}

/// x and its neighbours, `steps` to each side by bit pattern.
fn around(x: f64, steps: u64, out: &mut Vec<f64>) {
    for d in 0..=2 * steps {
        out.push(bits(x.to_bits().wrapping_add(d).wrapping_sub(steps)));
    }
}

fn special() -> Vec<f64> {
    let mut out = vec![];
    for x in [0.0, 1.0, f64::INFINITY, f64::NAN, f64::MAX, f64::MIN_POSITIVE, bits(1), 709.0, 1048576.0] {
        out.extend([x, -x]);
    }
    out
}

fn subnormals(random: &mut Random) -> Vec<f64> {
    let mut out: Vec<f64> = (1..2000).flat_map(|n| [bits(n), bits((1 << 52) - n), -bits(n)]).collect();
    out.extend((0..10_000).map(|_| bits(random.next() >> 12 >> (random.next() % 52))));
    out
}

/// Every power of two, of both signs, with its neighbours.
fn powers_of_two() -> Vec<f64> {
    let mut out = vec![];
    for field in 0..2047u64 {
        around(bits(field << 52), 2, &mut out);
        around(-bits(field << 52), 2, &mut out);
    }
    out
}

fn patterns(random: &mut Random) -> Vec<f64> {
    (0..40_000).map(|_| bits(random.next())).collect()
}

fn root_points(random: &mut Random) -> Vec<Vec<f64>> {
    let mut squares = vec![];
    for n in 1..4000u64 {
        around((n * n) as f64, 1, &mut squares);
    }
    for _ in 0..20_000 {
        let h = 1.0 + random.unit();
        around(h * h, 2, &mut squares);
    }
    let positive = (0..60_000).map(|_| bits(random.next() >> 1)).collect();
    vec![special(), subnormals(random), powers_of_two(), squares, positive, patterns(random)]
}

fn exp_points(random: &mut Random) -> Vec<Vec<f64>> {
    let mut ends = vec![];
    around(709.0, 2000, &mut ends);
    around(709.782712893384, 200, &mut ends);
    let mut turns = vec![];
    for k in 1..1024 {
        around(f64::from(k) * LN_2, 10, &mut turns);
    }
    let inside = (0..60_000).map(|_| random.unit() * 710.0).collect();
    let small = (0..20_000).map(|_| bits(random.next() % 0x4087_0000_0000_0000)).collect();
    vec![special(), subnormals(random), powers_of_two(), ends, turns, inside, small, patterns(random)]
}

fn turn_points(random: &mut Random) -> Vec<Vec<f64>> {
    let mut ends = vec![];
    around(1048576.0, 1000, &mut ends);
    around(-1048576.0, 1000, &mut ends);
    let mut quarters = vec![];
    let mut eighths = vec![];
    for k in -667_600i32..=667_600 {
        if k.abs() < 2000 || k % 199 == 0 {
            around(f64::from(k) * FRAC_PI_2, 3, &mut quarters);
            around((f64::from(k) + 0.5) * FRAC_PI_2, 3, &mut eighths);
        }
    }
    let inside = (0..60_000).map(|_| (random.unit() * 2.0 - 1.0) * 1048576.0).collect();
    let near = (0..30_000).map(|_| (random.unit() * 2.0 - 1.0) * 10.0).collect();
    vec![special(), subnormals(random), powers_of_two(), ends, quarters, eighths, inside, near, patterns(random)]
}

/// Frequency and temperature.
fn occupation_points(random: &mut Random) -> Vec<Vec<(f64, f64)>> {
    let edges = special().iter().flat_map(|&x| special().into_iter().map(move |t| (x, t))).collect();
    let mut fixed = vec![];
    for t in [1.0, 0.0, 1.5, 6.25, f64::MIN_POSITIVE, 1e300] {
        for group in exp_points(random) {
            fixed.extend(group.into_iter().step_by(13).map(|x| (x, t)));
        }
    }
    let ordinary = (0..60_000).map(|_| (random.unit() * 40.0, random.unit() * 20.0)).collect();
    let cold = (0..20_000).map(|_| (random.unit() * 40.0, random.unit() * 0.1)).collect();
    let hot = (0..20_000).map(|_| (random.unit(), random.unit() * 1e6)).collect();
    let any = (0..20_000).map(|_| (bits(random.next()), bits(random.next()))).collect();
    vec![edges, fixed, ordinary, cold, hot, any]
}

// ---- the comparison

fn same(a: f64, b: f64) -> bool {
    a.to_bits() == b.to_bits() || (a.is_nan() && b.is_nan())
}

/// Writes one function's line and returns its points and mismatches.
fn compare<P: Copy>(name: &str, groups: &[Vec<P>], show: impl Fn(P) -> String, plain: impl Fn(P) -> f64, proved: impl Fn(P) -> f64) -> (usize, usize) {
    let (mut points, mut mismatches) = (0, 0);
    for &point in groups.iter().flatten() {
        let (a, b) = (plain(point), proved(point));
        points += 1;
        if !same(a, b) {
            mismatches += 1;
            if mismatches < 5 {
                println!("{name} differs at {}: plain {:016x} proved {:016x}", show(point), a.to_bits(), b.to_bits());
            }
        }
    }
    println!("{name} {points} points, mismatches {mismatches}");
    (points, mismatches)
}

/// `wanted` lines for one function, as many from each group as it has.
fn list<P: Copy>(name: &str, wanted: usize, groups: &[Vec<P>], show: impl Fn(P) -> String, plain: impl Fn(P) -> f64) {
    let mut left = wanted;
    let mut order: Vec<&Vec<P>> = groups.iter().collect();
    order.sort_by_key(|group| group.len());
    for (i, group) in order.iter().enumerate() {
        let take = (left / (order.len() - i)).min(group.len());
        left -= take;
        for j in 0..take {
            let point = group[j * group.len() / take];
            println!("{name} {} {:016x}", show(point), word(plain(point)));
        }
    }
}

/// The bits, every NaN the same. The optimizer, for which any NaN serves, must not see where x comes from.
fn word(x: f64) -> u64 {
    let x = std::hint::black_box(x);
    if x.is_nan() { 0x7ff8_0000_0000_0000 } else { x.to_bits() }
}

fn one(x: f64) -> String {
    format!("{:016x}", word(x))
}

fn two(p: (f64, f64)) -> String {
    format!("{:016x} {:016x}", word(p.0), word(p.1))
}

fn main() {
    let random = &mut Random(0x9E37_79B9_7F4A_7C15);
    let (roots, exps, turns) = (root_points(random), exp_points(random), turn_points(random));
    let occupations = occupation_points(random);
    if std::env::args().nth(1).as_deref() == Some("list") {
        println!("# Made by `tools/standins/run list`: the answers of plain f64 arithmetic in Rust, written from document 01,");
        println!("# with f64::sqrt as the root. Each line: a function, its argument's bits (two arguments for bose_einstein,");
        println!("# frequency and temperature), and its answer's bits, every NaN as 7ff8000000000000.");
        list("root", 300, &roots, one, f64::sqrt);
        list("exp", 300, &exps, one, exp);
        list("sin", 300, &turns, one, |x| sin_cos(x).0);
        list("cos", 300, &turns, one, |x| sin_cos(x).1);
        list("bose_einstein", 300, &occupations, two, |(x, t)| bose_einstein(x, t));
        return;
    }
    // Safety: the proved functions take and return plain numbers, and have no precondition.
    let results = unsafe {
        [
            compare("root", &roots, one, f64::sqrt, |x| standins_root(x)),
            compare("exp", &exps, one, exp, |x| standins_exp(x)),
            compare("sin", &turns, one, |x| sin_cos(x).0, |x| standins_sin(x)),
            compare("cos", &turns, one, |x| sin_cos(x).1, |x| standins_cos(x)),
            compare("bose_einstein", &occupations, two, |(x, t)| bose_einstein(x, t), |(x, t)| standins_bose_einstein(x, t)),
        ]
    };
    let points: usize = results.iter().map(|r| r.0).sum();
    let mismatches: usize = results.iter().map(|r| r.1).sum();
    println!("compared {points}, mismatches {mismatches}");
    if mismatches > 0 {
        std::process::exit(1);
    }
}
