//! One call through a door, and its outcome beside the oracle's: the answer and every bit of every buffer.

use crate::call::{Buffers, Call};
use crate::doors::{Doors, Lent, ORACLE};
use oracle::sets::{work_size, Symmetry};
use std::cell::{Cell, RefCell};
use std::panic::{catch_unwind, set_hook, take_hook, AssertUnwindSafe};

/// Numbers before and behind each lent buffer that no door may touch.
const GUARD: usize = 16;
const GUARD_BITS: u64 = 0x7FF4_5A5A_A5A5_0F0F;
const GUARD_BYTE: u8 = 0x5A;

thread_local! {
    /// True while this thread is inside `tried`.
    static TRYING: Cell<bool> = const { Cell::new(false) };
    /// What the last panic inside `tried` said.
    static SAID: RefCell<String> = const { RefCell::new(String::new()) };
}

/// From now on a panic inside `tried` is not told on standard error but kept for its error; every other is told as before.
pub fn keep_tried_panics() {
    let tell = take_hook();
    set_hook(Box::new(move |panic| {
        if TRYING.get() {
            let said = format!("stopped with a panic: {panic}").replace('\n', " ");
            SAID.set(said);
        } else {
            tell(panic);
        }
    }));
}

/// What the closure gives; an error if it stops with a panic.
pub fn tried<T>(closure: impl FnOnce() -> T) -> Result<T, String> {
    let outer = TRYING.replace(true);
    SAID.set("stopped with a panic".to_string());
    let given = catch_unwind(AssertUnwindSafe(closure));
    TRYING.set(outer);
    given.map_err(|_| SAID.take())
}

/// What a call left.
pub struct Outcome {
    pub answer: u8,
    pub after: Buffers,
}

/// Works the call; an error names what was touched that must not be, or that the door did not come back.
pub fn work(doors: &dyn Doors, call: &Call) -> Result<Outcome, String> {
    let handed = call.clone();
    let mut rooms = [
        &call.before.strengths,
        &call.before.totals,
        &call.before.work,
        &call.before.first_weights,
        &call.before.second_weights,
    ]
    .map(|before| guarded(before, f64::from_bits(GUARD_BITS)));
    let mut flags = guarded(&call.before.flags, GUARD_BYTE);
    let answer = tried(|| {
        let [strengths, totals, work, first_weights, second_weights] = &mut rooms;
        let lent = Lent {
            strengths: inside(strengths),
            totals: inside(totals),
            work: inside(work),
            first_weights: inside(first_weights),
            second_weights: inside(second_weights),
            flags: inside(&mut flags),
        };
        doors.answer(&handed, lent)
    })?;
    if let Some(table) = call.changed_table(&handed) {
        return Err(format!("{table}, lent for reading, changed"));
    }
    if !rooms.iter().all(|room| number_guards_stand(room)) || !byte_guards_stand(&flags) {
        return Err("wrote outside a buffer".to_string());
    }
    let [strengths, totals, work, first_weights, second_weights] =
        rooms.map(|mut room| inside(&mut room).to_vec());
    Ok(Outcome {
        answer,
        after: Buffers {
            strengths,
            totals,
            work,
            first_weights,
            second_weights,
            flags: inside(&mut flags).to_vec(),
        },
    })
}

fn guarded<T: Copy>(before: &[T], guard: T) -> Vec<T> {
    let guard = [guard; GUARD];
    [&guard[..], before, &guard[..]].concat()
}

fn inside<T>(room: &mut [T]) -> &mut [T] {
    let end = room.len() - GUARD;
    &mut room[GUARD..end]
}

fn guards_stand<T: Copy>(room: &[T], stands: impl Fn(T) -> bool) -> bool {
    let end = room.len() - GUARD;
    room[..GUARD].iter().chain(&room[end..]).all(|&x| stands(x))
}

fn number_guards_stand(room: &[f64]) -> bool {
    guards_stand(room, |x| x.to_bits() == GUARD_BITS)
}

fn byte_guards_stand(room: &[u8]) -> bool {
    guards_stand(room, |x| x == GUARD_BYTE)
}

/// The oracle's outcome of the call; an error is the oracle's own and no fault of a door.
pub fn expected(call: &Call) -> Result<Outcome, String> {
    work(&ORACLE, call).map_err(|what| format!("the oracle {what}"))
}

/// Which entries an accepted call writes: strengths unflagged or symmetrized, the first W of work, of the others all.
struct Written<'a> {
    call: &'a Call,
    accepted: bool,
}

impl Written<'_> {
    fn strength(&self, place: usize) -> bool {
        let set = &self.call.set.strengths;
        self.accepted && (set.symmetry == Symmetry::Symmetrized || set.flags[place] == 0)
    }

    fn other(&self, _place: usize) -> bool {
        self.accepted
    }

    fn work(&self, place: usize) -> bool {
        self.accepted && (place as u128) < work_size(&self.call.set.strengths.measures)
    }
}

/// The first entry of a buffer that differs: where the oracle wrote, any NaN equals any NaN; elsewhere the bits count.
fn first_difference(
    name: &str,
    oracle: &[f64],
    door: &[f64],
    written: impl Fn(usize) -> bool,
) -> Option<String> {
    let same = |place: usize| {
        let (a, b) = (oracle[place], door[place]);
        a.to_bits() == b.to_bits() || (a.is_nan() && b.is_nan() && written(place))
    };
    let place = (0..oracle.len()).find(|&place| !same(place))?;
    Some(format!(
        "{name} differ first at {place}: oracle {:016x}, door {:016x}",
        oracle[place].to_bits(),
        door[place].to_bits()
    ))
}

/// How an outcome differs from the oracle's, if it does.
pub fn difference(call: &Call, oracle: &Outcome, door: &Result<Outcome, String>) -> Option<String> {
    let door = match door {
        Ok(door) => door,
        Err(what) => return Some(what.clone()),
    };
    if oracle.answer != door.answer {
        return Some(format!(
            "answers differ: oracle {}, door {}",
            oracle.answer, door.answer
        ));
    }
    let written = Written {
        call,
        accepted: oracle.answer == 0,
    };
    let (a, b) = (&oracle.after, &door.after);
    first_difference("strengths", &a.strengths, &b.strengths, |place| {
        written.strength(place)
    })
    .or_else(|| first_difference("totals", &a.totals, &b.totals, |place| written.other(place)))
    .or_else(|| first_difference("work", &a.work, &b.work, |place| written.work(place)))
    .or_else(|| {
        first_difference(
            "first weights",
            &a.first_weights,
            &b.first_weights,
            |place| written.other(place),
        )
    })
    .or_else(|| {
        first_difference(
            "second weights",
            &a.second_weights,
            &b.second_weights,
            |place| written.other(place),
        )
    })
    .or_else(|| first_other_flag(&a.flags, &b.flags))
}

fn first_other_flag(oracle: &[u8], door: &[u8]) -> Option<String> {
    let place = oracle.iter().zip(door).position(|(a, b)| a != b)?;
    Some(format!(
        "flags differ first at {place}: oracle {}, door {}",
        oracle[place], door[place]
    ))
}

/// The oracle's own outcome against the rule of what is written; for the self-test.
pub fn untouched_stand(call: &Call, outcome: &Outcome) -> bool {
    let written = Written {
        call,
        accepted: outcome.answer == 0,
    };
    let stand = |before: &[f64], after: &[f64], written: &dyn Fn(usize) -> bool| {
        before
            .iter()
            .zip(after)
            .enumerate()
            .all(|(place, (x, y))| written(place) || x.to_bits() == y.to_bits())
    };
    let (a, b) = (&call.before, &outcome.after);
    stand(&a.strengths, &b.strengths, &|place| written.strength(place))
        && stand(&a.totals, &b.totals, &|place| written.other(place))
        && stand(&a.work, &b.work, &|place| written.work(place))
        && stand(&a.first_weights, &b.first_weights, &|place| {
            written.other(place)
        })
        && stand(&a.second_weights, &b.second_weights, &|place| {
            written.other(place)
        })
        && (written.accepted || a.flags == b.flags)
}

#[cfg(test)]
mod tests {
    use super::*;

    #[test]
    fn a_panic_that_is_tried_is_an_error() {
        assert_eq!(tried(|| 7), Ok(7));
        assert!(tried(|| -> u8 { panic!("on purpose") }).is_err());
        assert!(
            tried(|| tried(|| -> u8 { panic!("on purpose") })).is_ok_and(|inner| inner.is_err())
        );
        assert!(!TRYING.get());
    }

    #[test]
    fn guards_show_a_write_beside_the_buffer() {
        for before in [vec![], vec![1.0, f64::NAN]] {
            let room = guarded(&before, f64::from_bits(GUARD_BITS));
            assert!(number_guards_stand(&room));
            assert_eq!(inside(&mut room.clone()).len(), before.len());
            for place in [0, GUARD - 1, GUARD + before.len(), room.len() - 1] {
                let mut touched = room.clone();
                touched[place] = 0.0;
                assert!(!number_guards_stand(&touched));
            }
        }
        for before in [vec![], vec![1, GUARD_BYTE]] {
            let room = guarded(&before, GUARD_BYTE);
            assert!(byte_guards_stand(&room));
            assert_eq!(inside(&mut room.clone()), before);
            for place in [0, GUARD - 1, GUARD + before.len(), room.len() - 1] {
                let mut touched = room.clone();
                touched[place] = 0;
                assert!(!byte_guards_stand(&touched));
            }
        }
    }
}
