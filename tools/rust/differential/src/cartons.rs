//! Random carton files: good ones, ones at the limits, and ones damaged in their set, words, blocks or length.

use crate::call::{Call, Door, Kind};
use crate::damage;
use crate::phases;
use crate::random::Random;
use crate::tables::{self, Outline};
use oracle::carton::{seal, table_words, words_of, BLOCK, BLOCK_LIMIT, BLOCK_WORDS, HEADING_WORDS};
use oracle::sets::*;

const MOST_WORDS: u128 = (BLOCK_LIMIT * BLOCK_WORDS) as u128;
/// Tells the cartons' sets from the doors'.
const STREAM: u64 = 9;

#[derive(Clone, Copy, Debug, PartialEq, Eq)]
pub enum CartonKind {
    Good,
    Tight,
    Set,
    Heading,
    Block,
    File,
    Several,
    Random,
}

impl CartonKind {
    pub const ALL: [CartonKind; 8] = [
        CartonKind::Good,
        CartonKind::Tight,
        CartonKind::Set,
        CartonKind::Heading,
        CartonKind::Block,
        CartonKind::File,
        CartonKind::Several,
        CartonKind::Random,
    ];

    pub fn name(self) -> &'static str {
        match self {
            CartonKind::Good => "good",
            CartonKind::Tight => "filled to a block's end",
            CartonKind::Set => "set damaged",
            CartonKind::Heading => "words damaged",
            CartonKind::Block => "blocks damaged",
            CartonKind::File => "length damaged",
            CartonKind::Several => "damaged in several ways",
            CartonKind::Random => "random",
        }
    }
}

pub struct Carton {
    pub kind: CartonKind,
    /// What was done to it.
    pub damage: Vec<String>,
    pub bytes: Vec<u8>,
}

/// The carton of a seed and an index.
pub fn carton(seed: u64, index: u64) -> Carton {
    let mut random = Random::of(seed, STREAM, index);
    let random = &mut random;
    let kind = CartonKind::ALL[random.weighted(&[20, 6, 24, 22, 10, 6, 20, 4])];
    let mut damage = Vec::new();
    let level = |wanted: CartonKind, random: &mut Random| {
        kind == wanted || (kind == CartonKind::Several && random.chance(2))
    };
    if kind == CartonKind::Random {
        let bytes = random_file(random);
        return Carton {
            kind,
            damage,
            bytes,
        };
    }
    let mut call = fitting_call(random);
    if kind == CartonKind::Tight {
        tighten(random, &mut call);
    }
    if level(CartonKind::Set, random) {
        damage.push(damage_set(random, &mut call));
    }
    let set = &call.set;
    let mut words = words_of(set);
    words.resize(words.len().div_ceil(BLOCK_WORDS) * BLOCK_WORDS, 0);
    if level(CartonKind::Heading, random) {
        damage.push(damage_words(random, &mut words, &set.strengths));
    }
    let mut bytes = seal(&words);
    if level(CartonKind::Block, random) && !bytes.is_empty() {
        damage.push(damage_block(random, &mut bytes));
    }
    if level(CartonKind::File, random) {
        damage.push(damage_file(random, &mut bytes));
    }
    Carton {
        kind,
        damage,
        bytes,
    }
}

/// Words of a carton with these measures, in true integers.
fn words_needed(measures: &Measures, form: Form) -> u128 {
    sum(&[HEADING_WORDS as u128, table_words(measures, form)])
}

/// A good call of the joined door that fits 96 blocks; now and then four atoms, whose work buffer is too long.
fn fitting_call(random: &mut Random) -> Call {
    let mut outline = Outline::random(random, Door::Joined);
    let m = &mut outline.measures;
    m.atoms = 1 + random.weighted(&[60, 26, 10, 4]) as u64;
    m.first = m.first.min(3 * m.atoms);
    while words_needed(m, outline.form) > MOST_WORDS {
        m.supercell = (m.supercell / 2).max(1);
        m.grid = (m.grid / 2).max(1);
        m.vectors = (m.vectors / 2).max(1);
        if m.supercell == 1 && m.grid == 1 {
            m.first = (m.first / 2).max(1);
        }
    }
    let kind = random.pick(&[
        Kind::Usual,
        Kind::Usual,
        Kind::Coarse,
        Kind::Wide,
        Kind::Huge,
        Kind::Tiny,
        Kind::Far,
        Kind::Edge,
    ]);
    let mut call = tables::call(random, Door::Joined, kind, &outline);
    phases::make(random, &mut call, (kind == Kind::Far).then_some(1.0));
    if kind == Kind::Edge {
        phases::put_at_the_end(random, &mut call);
    }
    call
}

/// Adds vectors until the words end at a block's end or next to it, or the 96 blocks are full.
fn tighten(random: &mut Random, call: &mut Call) {
    let t = &mut call.set.strengths;
    let room = MOST_WORDS - words_needed(&t.measures, t.form);
    let more = if random.chance(3) {
        room / 3
    } else {
        let over = words_needed(&t.measures, t.form) % BLOCK_WORDS as u128;
        ((BLOCK_WORDS as u128 - over) / 3 + u128::from(random.chance(3))).min(room / 3)
    };
    t.measures.vectors += more as u64;
    t.vectors.resize(3 * t.measures.vectors as usize, 0.25);
}

fn damage_set(random: &mut Random, call: &mut Call) -> String {
    let numbers: Vec<u8> = (0..1 + random.below(2))
        .map(|_| random.between(3, 9) as u8)
        .collect();
    let measure = random.chance(4);
    if !measure || random.chance(3) {
        damage::plant(random, call, &numbers);
    }
    let mut what = format!("{:?}", call.planted);
    if measure {
        what += &damage::fitting_measure(random, call);
    }
    what
}

/// First word of all-shortest, and number of words of the three flag tables.
fn flag_words(set: &StrengthsSet) -> (usize, usize) {
    let before = set.addresses.len()
        + set.vectors.len()
        + set.multiplicity.len()
        + set.p2s.len()
        + set.s2p.len()
        + set.masses.len()
        + set.bands.len()
        + set.frequencies.len()
        + set.eigenvectors.len();
    let count = set.all_shortest.len() + set.nonzero.len() + set.flags.len();
    (HEADING_WORDS + before, count)
}

fn damage_words(random: &mut Random, words: &mut Vec<u64>, set: &StrengthsSet) -> String {
    let needed = words_needed(&set.measures, set.form) as usize;
    match random.below(9) {
        0 => {
            words[0] = random.pick(&[0, 2, 1 + (1 << 32), 1 | (1 << 63), u64::MAX]);
            format!("edition {:x}", words[0])
        }
        1 => {
            let bit = random.between(3, 63);
            words[6] |= 1 << bit;
            format!("flag bit {bit}")
        }
        2 | 3 => damage_measure(random, words),
        4 => {
            let (start, count) = flag_words(set);
            let place = start + random.below(count.max(1));
            if let Some(word) = words.get_mut(place) {
                *word = random.pick(&[255, 128, 256, 257, 1 << 32, 1 << 63, u64::MAX]);
            }
            format!("flag word {place}")
        }
        5 => {
            let place = random.between(needed as i64, words.len().max(needed + 1) as i64 - 1);
            if let Some(word) = words.get_mut(place as usize) {
                *word = random.pick(&[1, 1 << 63, 1 << 32, 255, u64::MAX]);
            }
            format!("padding word {place}")
        }
        6 => {
            let fewer = random.chance(2) && words.len() > BLOCK_WORDS;
            let filler = random.pick(&[0, 0, 1]);
            let length = words.len();
            if fewer {
                words.truncate(length - BLOCK_WORDS);
            } else {
                words.resize(length + BLOCK_WORDS * random.pick(&[1, 1, 2, 30]), filler);
            }
            format!("{} words for {length}", words.len())
        }
        7 => {
            let weight = random.pick(&[u64::MAX, 0, 1 << 31, (1 << 32) + 1, 1 << 63]);
            words[7] = weight;
            format!("weight {weight:x}")
        }
        _ => {
            let place = random.below(words.len());
            words[place] = random.bits() >> random.below(64);
            format!("word {place}")
        }
    }
}

/// One of the five measures changed, some so that the number of words comes round modulo 2^32 or 2^64.
fn damage_measure(random: &mut Random, words: &mut [u64]) -> String {
    let place = 1 + random.below(5);
    let good = words[place];
    words[place] = match random.below(6) {
        0 => good.wrapping_add(1 << random.between(32, 63)),
        1 => random.pick(&[
            u64::MAX,
            1 << 63,
            i64::MAX as u64,
            1 << 61,
            1 << 62,
            100_000,
        ]),
        2 => good.wrapping_sub(1),
        3 => good + 1,
        4 => good.wrapping_add(random.pick(&[1 << 61, 1 << 62, 1 << 60, 1 << 63])),
        _ => random.bits() >> random.below(64),
    };
    format!("measure word {place} {:x} for {good:x}", words[place])
}

/// The sum modulo 2^32 of the first `count` four-byte words of a block.
fn check(block: &[u8], count: usize) -> u32 {
    block[..4 * count]
        .chunks(4)
        .map(|word| u32::from_le_bytes([word[0], word[1], word[2], word[3]]))
        .fold(0, u32::wrapping_add)
}

fn damage_block(random: &mut Random, bytes: &mut [u8]) -> String {
    let blocks = bytes.len() / BLOCK;
    let which = random.place(blocks);
    let block = &mut bytes[which * BLOCK..][..BLOCK];
    match random.below(6) {
        0 => {
            // The right check but another number.
            let number = (which as u32).wrapping_add(random.pick(&[1, u32::MAX, 1 << 8, 1 << 31]));
            block[504..508].copy_from_slice(&number.to_le_bytes());
            let sum = check(block, 127);
            block[508..].copy_from_slice(&sum.to_le_bytes());
            format!("number of block {which}")
        }
        1 => {
            // A check that leaves the number out: right in block 0 alone.
            let sum = check(block, 126);
            block[508..].copy_from_slice(&sum.to_le_bytes());
            format!("check of block {which} without its number")
        }
        2 if blocks > 1 => {
            let other = (which + 1) % blocks;
            for place in 0..BLOCK {
                bytes.swap(which * BLOCK + place, other * BLOCK + place);
            }
            format!("blocks {which} and {other} exchanged")
        }
        3 => {
            // Two four-byte words exchanged keep the sum.
            let (one, other) = (random.below(126), random.below(126));
            for byte in 0..4 {
                block.swap(4 * one + byte, 4 * other + byte);
            }
            format!("four-byte words {one} and {other} of block {which} exchanged")
        }
        _ => {
            let any = random.below(BLOCK);
            let place = random.pick(&[0, 7, 8, 503, 504, 507, 508, 511, any]);
            block[place] ^= 1 << random.below(8);
            format!("byte {place} of block {which}")
        }
    }
}

fn damage_file(random: &mut Random, bytes: &mut Vec<u8>) -> String {
    let length = bytes.len();
    match random.below(7) {
        0 => bytes.clear(),
        1 => bytes.truncate(length.saturating_sub(1)),
        2 => bytes.truncate(random.below(length + 1)),
        3 => bytes.push(0),
        4 => bytes.resize(random.pick(&[97, 98, 200]) * BLOCK, 0),
        5 => bytes.resize(
            random.pick(&[97 * BLOCK + 1, 96 * BLOCK + 1, 97 * BLOCK - 1]),
            0,
        ),
        _ => bytes.resize(random.pick(&[96 * BLOCK, 2_000_000, 1 << 20]), 0),
    }
    format!("{} bytes for {length}", bytes.len())
}

fn random_file(random: &mut Random) -> Vec<u8> {
    let blocks = random.between(1, 6) as usize;
    match random.below(5) {
        0 => (0..random.below(3_000))
            .map(|_| random.bits() as u8)
            .collect(),
        1 => (0..blocks * BLOCK).map(|_| random.bits() as u8).collect(),
        2 => vec![0; random.pick(&[1, 512, 1024, 96 * BLOCK])],
        3 => seal(&vec![
            random.pick(&[0, 1, u64::MAX]);
            random.pick(&[1, 3, 96, 97]) * BLOCK_WORDS
        ]),
        _ => {
            let mut words: Vec<u64> = (0..blocks * BLOCK_WORDS)
                .map(|_| random.bits() >> random.below(64))
                .collect();
            words[0] = 1;
            for word in &mut words[1..7] {
                *word = random.below(4) as u64;
            }
            seal(&words)
        }
    }
}
