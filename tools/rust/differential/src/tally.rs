//! Counts of what was compared: for each door the answers, the kinds and the planted faults; for `key` what it prints, and the kinds of cartons.

use crate::call::{Call, Door, Kind, Limit};
use crate::cartons::CartonKind;
use crate::doors::UNKNOWN;

/// The refusals of the doors.
const NUMBERS: [u8; 10] = [1, 2, 3, 4, 5, 6, 7, 8, 9, 13];
/// One place for each number up to the highest.
const PLACES: usize = 14;

#[derive(Clone, Default)]
struct DoorTally {
    sets: u64,
    answers: [u64; PLACES],
    unknown: u64,
    kinds: [u64; 13],
    /// Accepted sets with something at its limit.
    limits: [u64; 11],
    alone: [u64; PLACES],
    pairs: [[u64; PLACES]; PLACES],
}

#[derive(Default)]
pub struct Tally {
    doors: [DoorTally; 5],
    pub mismatches: u64,
}

impl Tally {
    /// One set more, with the oracle's answer if it gave one.
    pub fn note(&mut self, call: &Call, answer: Option<u8>) {
        let tally = &mut self.doors[call.door as usize];
        tally.sets += 1;
        match answer {
            Some(UNKNOWN) => tally.unknown += 1,
            Some(answer) => tally.answers[usize::from(answer)] += 1,
            None => (),
        }
        tally.kinds[call.kind as usize] += 1;
        if let (Some(limit), Some(0)) = (call.limit, answer) {
            tally.limits[limit as usize] += 1;
        }
        match call.planted[..] {
            [(a, _)] => tally.alone[usize::from(a)] += 1,
            [(a, _), (b, _)] => tally.pairs[usize::from(a)][usize::from(b)] += 1,
            _ => (),
        }
    }

    /// A set that could not be made: a mismatch.
    pub fn note_lost(&mut self, door: Door) {
        self.doors[door as usize].sets += 1;
        self.mismatches += 1;
    }

    /// Both counts together.
    pub fn add(&mut self, other: &Tally) {
        for (a, b) in self.doors.iter_mut().zip(&other.doors) {
            a.sets += b.sets;
            a.unknown += b.unknown;
            add(&mut a.answers, &b.answers);
            add(&mut a.kinds, &b.kinds);
            add(&mut a.limits, &b.limits);
            add(&mut a.alone, &b.alone);
            for (c, d) in a.pairs.iter_mut().zip(&b.pairs) {
                add(c, d);
            }
        }
        self.mismatches += other.mismatches;
    }

    pub fn sets(&self) -> u64 {
        self.doors.iter().map(|tally| tally.sets).sum()
    }

    /// Sets of a door with this answer.
    pub fn answers(&self, door: Door, answer: u8) -> u64 {
        self.doors[door as usize].answers[usize::from(answer)]
    }

    /// Sets of a door with these two faults planted, the lower first.
    pub fn pairs(&self, door: Door, lower: u8, higher: u8) -> u64 {
        self.doors[door as usize].pairs[usize::from(lower)][usize::from(higher)]
    }

    pub fn alone(&self, door: Door, number: u8) -> u64 {
        self.doors[door as usize].alone[usize::from(number)]
    }

    /// Tables of answers, kinds and pairs of faults.
    pub fn report(&self) -> String {
        let worked: Vec<Door> = Door::ALL
            .into_iter()
            .filter(|&door| self.doors[door as usize].sets > 0)
            .collect();
        let mut text = format!("{:10}{:>9}{:>9}", "door", "sets", "accepted");
        for number in NUMBERS {
            text += &format!("{number:>7}");
        }
        text += &format!("{UNKNOWN:>7}\n");
        for &door in &worked {
            let tally = &self.doors[door as usize];
            text += &format!("{:10}{:>9}{:>9}", door.name(), tally.sets, tally.answers[0]);
            for number in NUMBERS {
                text += &format!("{:>7}", tally.answers[usize::from(number)]);
            }
            text += &format!("{:>7}\n", tally.unknown);
        }
        let mut counts = |title: &str, rows: &[&str], count: &dyn Fn(&DoorTally, usize) -> u64| {
            text += &format!("\n{title:28}");
            for &door in &worked {
                text += &format!("{:>9}", door.name());
            }
            text += "\n";
            for (place, row) in rows.iter().enumerate() {
                text += &format!("{row:28}");
                for &door in &worked {
                    text += &format!("{:>9}", count(&self.doors[door as usize], place));
                }
                text += "\n";
            }
        };
        counts("kind", &Kind::ALL.map(Kind::name), &|tally, place| {
            tally.kinds[place]
        });
        counts(
            "at a limit, accepted",
            &Limit::ALL.map(Limit::name),
            &|tally, place| tally.limits[place],
        );
        for &door in &worked {
            text += &self.pairs_report(door);
        }
        text
    }

    fn pairs_report(&self, door: Door) -> String {
        let numbers = door.numbers();
        let mut text = format!(
            "\n{:21}{:>7}",
            format!("faults planted, {}", door.name()),
            "alone"
        );
        for number in numbers {
            text += &format!("{:>7}", format!("and {number}"));
        }
        text += "\n";
        for &lower in numbers {
            text += &format!("{lower:>21}{:>7}", self.alone(door, lower));
            for &higher in numbers {
                if higher >= lower {
                    text += &format!("{:>7}", self.pairs(door, lower, higher));
                } else {
                    text += &format!("{:>7}", "");
                }
            }
            text += "\n";
        }
        text
    }
}

/// Cartons by the number that `key` prints, 0 for a key, and by kind.
#[derive(Default)]
pub struct CartonTally {
    cartons: u64,
    numbers: [u64; 13],
    kinds: [u64; 8],
    pub mismatches: u64,
}

impl CartonTally {
    /// One carton more, with what the oracle prints for it if it came to an end.
    pub fn note(&mut self, kind: CartonKind, text: Option<&[u8]>) {
        self.cartons += 1;
        if let Some(text) = text {
            self.numbers[printed_number(text)] += 1;
        }
        self.kinds[kind as usize] += 1;
    }

    /// A carton that could not be made: a mismatch.
    pub fn note_lost(&mut self) {
        self.cartons += 1;
        self.mismatches += 1;
    }

    /// Both counts together.
    pub fn add(&mut self, other: &CartonTally) {
        self.cartons += other.cartons;
        add(&mut self.numbers, &other.numbers);
        add(&mut self.kinds, &other.kinds);
        self.mismatches += other.mismatches;
    }

    pub fn cartons(&self) -> u64 {
        self.cartons
    }

    pub fn report(&self) -> String {
        let mut text = format!("{:10}{:>9}{:>9}", "", "cartons", "accepted");
        for number in 1..=12 {
            text += &format!("{number:>7}");
        }
        text += &format!("\n{:10}{:>9}", "key", self.cartons());
        text += &format!("{:>9}", self.numbers[0]);
        for count in &self.numbers[1..] {
            text += &format!("{count:>7}");
        }
        text += &format!("\n\n{:28}{:>9}\n", "kind", "key");
        for kind in CartonKind::ALL {
            text += &format!("{:28}{:>9}\n", kind.name(), self.kinds[kind as usize]);
        }
        text
    }
}

/// The refusal that a text of `key` names, or 0.
fn printed_number(text: &[u8]) -> usize {
    let text = String::from_utf8_lossy(text);
    text.strip_prefix("refused ")
        .and_then(|rest| rest.trim_end().parse().ok())
        .map_or(0, |number: usize| number.min(12))
}

fn add(a: &mut [u64], b: &[u64]) {
    for (x, y) in a.iter_mut().zip(b) {
        *x += y;
    }
}
