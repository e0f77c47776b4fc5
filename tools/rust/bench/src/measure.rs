//! One case: the same bits first, then all sides in turn, the least time of several rounds each.

use crate::case::{Case, Timed};
use crate::rust_side::RustSide;
use differential::call::{Buffers, Call};
use differential::doors::{Doors, Lent};
use std::hint::black_box;
use std::time::Duration;

/// A batch of calls takes about so long, so that the clock's own steps do not count.
const BATCH: Duration = Duration::from_millis(2);

/// Time as the C library's `clock_gettime` writes it.
#[repr(C)]
struct Timespec {
    seconds: i64,
    nanoseconds: i64,
}

extern "C" {
    fn clock_gettime(clock: i32, time: *mut Timespec) -> i32;
}

const THREAD_CPU_TIME: i32 = 3;

/// Processor time of this thread, so that other work on the machine counts less.
fn now() -> Duration {
    let mut time = Timespec {
        seconds: 0,
        nanoseconds: 0,
    };
    // Safety: the clock is written to a place of its own form.
    let status = unsafe { clock_gettime(THREAD_CPU_TIME, &mut time) };
    assert_eq!(status, 0, "the thread has a clock");
    Duration::new(time.seconds as u64, time.nanoseconds as u32)
}

/// Times of one call, or of one triplet of a list, in microseconds.
#[derive(Clone, Copy, Debug)]
pub struct Times {
    pub rattle: f64,
    pub rust: f64,
    /// Of a second library, where one is linked.
    pub beside: Option<f64>,
}

impl Times {
    pub fn ratio(&self) -> f64 {
        self.rattle / self.rust
    }

    /// The lesser time of each side.
    pub fn least(self, other: Times) -> Times {
        Times {
            rattle: self.rattle.min(other.rattle),
            rust: self.rust.min(other.rust),
            beside: self.beside.zip(other.beside).map(|(x, y)| x.min(y)),
        }
    }
}

/// How many libraries are linked.
const LIBRARIES: usize = if cfg!(feature = "beside") { 2 } else { 1 };

/// From now on the doors are those of library n: 0 or, where two are linked, 1.
#[cfg(feature = "beside")]
fn pick(n: usize) {
    extern "C" {
        fn wirambolo_pick(n: usize);
    }
    assert!(n < LIBRARIES);
    // Safety: tools/bench links the function, which has a place for each of two libraries.
    unsafe { wirambolo_pick(n) }
}

#[cfg(not(feature = "beside"))]
fn pick(_: usize) {}

fn lend(buffers: &mut Buffers) -> Lent<'_> {
    Lent {
        strengths: &mut buffers.strengths,
        totals: &mut buffers.totals,
        work: &mut buffers.work,
        first_weights: &mut buffers.first_weights,
        second_weights: &mut buffers.second_weights,
        flags: &mut buffers.flags,
    }
}

fn same(a: &[f64], b: &[f64]) -> bool {
    a.iter()
        .zip(b)
        .all(|(x, y)| x.to_bits() == y.to_bits() || (x.is_nan() && y.is_nan()))
}

/// An error if the door refuses a call of the case or leaves other bits than the Rust, whose turn the call is.
fn check(case: &Case, call: &Call, doors: &dyn Doors, rust: &mut RustSide) -> Result<(), String> {
    let mut buffers = call.before.clone();
    let answer = doors.answer(call, lend(&mut buffers));
    rust.work(case.timed);
    if answer != 0 {
        return Err(format!("{case:?}: answered {answer}"));
    }
    let strengths = matches!(case.timed, Timed::Triplet | Timed::List | Timed::Joined);
    if strengths && !same(&buffers.strengths, &rust.strengths) {
        return Err(format!("{case:?}: strengths differ"));
    }
    let totals = !matches!(case.timed, Timed::Triplet | Timed::List | Timed::Weights);
    if totals && !same(&buffers.totals, &rust.totals) {
        return Err(format!("{case:?}: totals differ"));
    }
    let weights = same(&buffers.first_weights, &rust.first_weights)
        && same(&buffers.second_weights, &rust.second_weights)
        && buffers.flags == rust.weights_flags;
    if case.timed == Timed::Weights && !weights {
        return Err(format!("{case:?}: weights or flags differ"));
    }
    Ok(())
}

fn batch(calls: u32, mut work: impl FnMut()) -> Duration {
    let start = now();
    for _ in 0..calls {
        work();
    }
    now() - start
}

/// Calls that take about a batch's time: of calls in turn, all of them once or several times.
fn calls_in_batch(in_turn: usize, mut work: impl FnMut()) -> u32 {
    let mut calls = in_turn as u32;
    while calls < 1 << 20 && batch(calls, &mut work) < BATCH {
        calls *= 2;
    }
    calls
}

const SIDES: usize = LIBRARIES + 1;

/// The sides in another order from round to round, each in each place and behind each other one: a library that works just after another
/// finds the tables in the cache.
fn order(round: usize) -> [usize; SIDES] {
    let step = if (round / SIDES).is_multiple_of(2) {
        1
    } else {
        SIDES - 1
    };
    std::array::from_fn(|place| (round + place * step) % SIDES)
}

/// The place behind this one of so many; the first behind the last.
pub fn next(place: usize, count: usize) -> usize {
    if place + 1 < count {
        place + 1
    } else {
        0
    }
}

fn micros(time: Duration, calls: u32) -> f64 {
    time.as_secs_f64() * 1e6 / f64::from(calls)
}

/// The least times of so many rounds, the sides alternating.
pub fn measure(case: &Case, doors: &dyn Doors, rounds: u32) -> Result<Times, String> {
    let calls_in_turn = case.calls();
    let mut rust = RustSide::of(&calls_in_turn);
    for n in 0..LIBRARIES {
        pick(n);
        for call in &calls_in_turn {
            check(case, call, doors, &mut rust)?;
        }
    }
    let mut buffers = calls_in_turn[0].before.clone();
    let mut turn = 0;
    let mut rattle_work = || {
        let call = &calls_in_turn[turn];
        turn = next(turn, calls_in_turn.len());
        black_box(doors.answer(black_box(call), lend(&mut buffers)));
    };
    let mut rust_work = || rust.work(black_box(case.timed));
    let calls = (
        calls_in_batch(calls_in_turn.len(), &mut rattle_work),
        calls_in_batch(calls_in_turn.len(), &mut rust_work),
    );
    // The Rust comes behind the libraries.
    let mut least = [f64::INFINITY; SIDES];
    let triplets = case.triplets() as f64;
    for round in 0..rounds.max(1) as usize {
        for side in order(round) {
            let time = if side < LIBRARIES {
                pick(side);
                micros(batch(calls.0, &mut rattle_work), calls.0)
            } else {
                micros(batch(calls.1, &mut rust_work), calls.1)
            };
            least[side] = least[side].min(time / triplets);
        }
    }
    Ok(Times {
        rattle: least[0],
        rust: least[LIBRARIES],
        beside: (LIBRARIES == 2).then(|| least[1]),
    })
}

#[cfg(test)]
mod tests {
    use super::*;
    use std::collections::HashSet;

    #[test]
    fn every_order_of_the_sides_has_its_turn() {
        let count = 2 * SIDES;
        let orders: HashSet<[usize; SIDES]> = (0..count).map(order).collect();
        assert_eq!(orders.len(), (1..=SIDES).product::<usize>());
        for order in orders {
            let mut sides = order;
            sides.sort_unstable();
            assert_eq!(sides, std::array::from_fn(|side| side));
        }
    }

    #[test]
    fn each_side_has_its_own_least_time() {
        let one = Times {
            rattle: 1.0,
            rust: 5.0,
            beside: Some(3.0),
        };
        let two = Times {
            rattle: 2.0,
            rust: 4.0,
            beside: Some(2.0),
        };
        let least = one.least(two);
        assert_eq!(
            (least.rattle, least.rust, least.beside),
            (1.0, 4.0, Some(2.0))
        );
    }
}
