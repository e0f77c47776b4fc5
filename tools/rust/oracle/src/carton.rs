//! The carton file: blocks of 512 bytes, each 63 words of 8 bytes, a block number and a check, little-endian.
//! `key` answers what the program `key` prints for any file.

use crate::doors;
use crate::sets::*;

/// Bytes of a block, words in it, and the most blocks of a file.
pub const BLOCK: usize = 512;
pub const BLOCK_WORDS: usize = 63;
pub const BLOCK_LIMIT: usize = 96;
/// Edition, five measures, flag bits, weight, cutoff, temperature, mesh, q matrix, triplet.
pub const HEADING_WORDS: usize = 25;
const WORK_LIMIT: u128 = 6_144;
const EDITION: u64 = 1;
const COMPACT: u64 = 1;
const AVERAGED: u64 = 2;
const SYMMETRIZED: u64 = 4;

/// Exactly what `key` prints for a file of these bytes.
pub fn key(bytes: &[u8]) -> Vec<u8> {
    let set = match decode(bytes) {
        Ok(set) => set,
        Err(number) => return refused(number),
    };
    let measures = &set.strengths.measures;
    let mut strengths = vec![0.0; slot_count(measures.atoms, measures.first) as usize];
    let mut totals = vec![0.0; measures.first as usize];
    let mut work = vec![0.0; WORK_LIMIT as usize];
    match doors::joined(&set, &mut strengths, &mut totals, &mut work) {
        0 => listing(&set.strengths, &strengths, &totals),
        number => refused(number),
    }
}

fn refused(number: u8) -> Vec<u8> {
    format!("refused {number}\n").into_bytes()
}

/// `bands`, the unflagged slots in the order b, k, j, then the totals.
fn listing(set: &StrengthsSet, strengths: &[f64], totals: &[f64]) -> Vec<u8> {
    let bands = 3 * set.measures.atoms as usize;
    let mut text = format!("bands {}\n", totals.len());
    for b in 0..totals.len() {
        for k in 0..bands {
            for j in 0..bands {
                let slot = (b * bands + j) * bands + k;
                if set.flags[slot] == 0 {
                    text += &format!("slot {b} {j} {k} {:016x}\n", printed_bits(strengths[slot]));
                }
            }
        }
    }
    for (position, &total) in totals.iter().enumerate() {
        text += &format!("total {position} {:016x}\n", printed_bits(total));
    }
    text.into_bytes()
}

/// The bits of x; one value for every NaN.
fn printed_bits(x: f64) -> u64 {
    if x.is_nan() {
        0x7ff8_0000_0000_0000
    } else {
        x.to_bits()
    }
}

/// The set in a file, or 10, 11 or 12.
pub fn decode(bytes: &[u8]) -> Result<JoinedSet, u8> {
    if bytes.is_empty() || !bytes.len().is_multiple_of(BLOCK) || bytes.len() / BLOCK > BLOCK_LIMIT {
        return Err(10);
    }
    let blocks: Vec<&[u8]> = bytes.chunks(BLOCK).collect();
    if blocks
        .iter()
        .enumerate()
        .any(|(number, block)| !is_sealed(number as u32, block))
    {
        return Err(11);
    }
    let words: Vec<u64> = blocks.iter().flat_map(|block| block_words(block)).collect();
    read_words(&words).ok_or(12)
}

/// True if the block carries this number and its check.
fn is_sealed(number: u32, block: &[u8]) -> bool {
    short_word(block, 126) == number && short_word(block, 127) == check(block)
}

/// The sum modulo 2^32 of the first 127 four-byte words, the block number among them.
fn check(block: &[u8]) -> u32 {
    (0..127).fold(0, |sum: u32, place| {
        sum.wrapping_add(short_word(block, place))
    })
}

fn short_word(block: &[u8], place: usize) -> u32 {
    u32::from_le_bytes(std::array::from_fn(|byte| block[4 * place + byte]))
}

fn block_words(block: &[u8]) -> Vec<u64> {
    let word = |bytes: &[u8]| u64::from_le_bytes(std::array::from_fn(|byte| bytes[byte]));
    block[..8 * BLOCK_WORDS].chunks(8).map(word).collect()
}

/// The tables of a carton in file order after the heading: number of words.
pub fn table_words(measures: &Measures, form: Form) -> u128 {
    let l = Lengths::of(measures, form);
    let integers = [l.addresses, l.multiplicity, l.p2s, l.s2p, l.bands];
    let numbers = [
        l.vectors,
        l.masses,
        l.frequencies,
        l.eigenvectors,
        l.force_constants,
    ];
    let slots = [l.slots, l.slots, l.slots];
    sum(&[
        sum(&integers),
        sum(&numbers),
        sum(&slots),
        l.all_shortest,
        l.nonzero,
    ])
}

/// The set in the words of all blocks, or none where the heading is to be refused.
fn read_words(words: &[u64]) -> Option<JoinedSet> {
    let bits = words[6];
    if words[0] != EDITION || bits & !(COMPACT | AVERAGED | SYMMETRIZED) != 0 {
        return None;
    }
    let measures = read_measures(&words[1..6])?;
    let form = if bits & COMPACT != 0 {
        Form::Compact
    } else {
        Form::Full
    };
    let needed = sum(&[HEADING_WORDS as u128, table_words(&measures, form)]);
    let blocks = (words.len() / BLOCK_WORDS) as u128;
    if needed.div_ceil(BLOCK_WORDS as u128) != blocks || work_size(&measures) > WORK_LIMIT {
        return None;
    }
    if words[needed as usize..].iter().any(|&word| word != 0) {
        return None;
    }
    read_set(words, measures, form)
}

/// The five measures, none below 0 as a signed word.
fn read_measures(words: &[u64]) -> Option<Measures> {
    if words.iter().any(|&word| (word as i64) < 0) {
        return None;
    }
    Some(Measures {
        atoms: words[0],
        supercell: words[1],
        first: words[2],
        grid: words[3],
        vectors: words[4],
    })
}

/// Takes tables from the words in file order.
struct Reader<'a> {
    rest: &'a [u64],
}

impl<'a> Reader<'a> {
    fn take(&mut self, count: u128) -> &'a [u64] {
        let (table, rest) = self.rest.split_at(count as usize);
        self.rest = rest;
        table
    }

    fn integers(&mut self, count: u128) -> Vec<i64> {
        self.take(count).iter().map(|&word| word as i64).collect()
    }

    fn integer_array<const N: usize>(&mut self) -> [i64; N] {
        let table = self.take(N as u128);
        std::array::from_fn(|place| table[place] as i64)
    }

    fn number(&mut self) -> f64 {
        f64::from_bits(self.take(1)[0])
    }

    fn numbers(&mut self, count: u128) -> Vec<f64> {
        self.take(count)
            .iter()
            .map(|&word| f64::from_bits(word))
            .collect()
    }

    /// None if a word has more than its low byte.
    fn flags(&mut self, count: u128) -> Option<Vec<u8>> {
        self.take(count)
            .iter()
            .map(|&word| u8::try_from(word).ok())
            .collect()
    }
}

fn anchoring_of(bits: u64) -> Anchoring {
    if bits & AVERAGED != 0 {
        Anchoring::Averaged
    } else {
        Anchoring::Plain
    }
}

fn symmetry_of(bits: u64) -> Symmetry {
    if bits & SYMMETRIZED != 0 {
        Symmetry::Symmetrized
    } else {
        Symmetry::Off
    }
}

/// The tables; the number of words is known to match the measures.
fn read_set(words: &[u64], measures: Measures, form: Form) -> Option<JoinedSet> {
    let l = Lengths::of(&measures, form);
    // Fields in file order: the fields of a struct literal are worked in the order written.
    let mut r = Reader { rest: &words[7..] };
    let weight = r.integer_array::<1>()[0];
    let settings = Settings {
        anchoring: anchoring_of(words[6]),
        cutoff: r.number(),
    };
    let bath = Bath {
        weight,
        temperature: r.number(),
    };
    let mesh = r.integer_array();
    let q_matrix = r.integer_array();
    let triplet = r.integer_array();
    let strengths = StrengthsSet {
        measures,
        settings,
        form,
        symmetry: symmetry_of(words[6]),
        mesh,
        q_matrix,
        addresses: r.integers(l.addresses),
        vectors: r.numbers(l.vectors),
        multiplicity: r.integers(l.multiplicity),
        p2s: r.integers(l.p2s),
        s2p: r.integers(l.s2p),
        masses: r.numbers(l.masses),
        bands: r.integers(l.bands),
        frequencies: r.numbers(l.frequencies),
        eigenvectors: r.numbers(l.eigenvectors),
        all_shortest: r.flags(l.all_shortest)?,
        nonzero: r.flags(l.nonzero)?,
        flags: r.flags(l.slots)?,
        force_constants: r.numbers(l.force_constants),
    };
    let first_weights = r.numbers(l.slots);
    let second_weights = r.numbers(l.slots);
    Some(JoinedSet {
        strengths,
        triplet,
        bath,
        first_weights,
        second_weights,
    })
}

/// The carton of a set, its tables written as they are, whatever their lengths.
pub fn encode(set: &JoinedSet) -> Vec<u8> {
    seal(&words_of(set))
}

/// The words of a set in file order, without the zeros behind them.
pub fn words_of(set: &JoinedSet) -> Vec<u64> {
    let t = &set.strengths;
    let m = &t.measures;
    let mut words = vec![
        EDITION,
        m.atoms,
        m.supercell,
        m.first,
        m.grid,
        m.vectors,
        flag_bits(t),
    ];
    words.push(set.bath.weight as u64);
    words.extend([t.settings.cutoff, set.bath.temperature].map(f64::to_bits));
    for table in [&t.mesh[..], &t.q_matrix, &set.triplet, &t.addresses] {
        push_integers(&mut words, table);
    }
    push_numbers(&mut words, &t.vectors);
    for table in [&t.multiplicity, &t.p2s, &t.s2p] {
        push_integers(&mut words, table);
    }
    push_numbers(&mut words, &t.masses);
    push_integers(&mut words, &t.bands);
    for table in [&t.frequencies, &t.eigenvectors] {
        push_numbers(&mut words, table);
    }
    for table in [&t.all_shortest, &t.nonzero, &t.flags] {
        words.extend(table.iter().map(|&flag| u64::from(flag)));
    }
    for table in [&t.force_constants, &set.first_weights, &set.second_weights] {
        push_numbers(&mut words, table);
    }
    words
}

fn flag_bits(set: &StrengthsSet) -> u64 {
    let bit = |set: bool, value: u64| if set { value } else { 0 };
    bit(set.form == Form::Compact, COMPACT)
        | bit(set.settings.anchoring == Anchoring::Averaged, AVERAGED)
        | bit(set.symmetry == Symmetry::Symmetrized, SYMMETRIZED)
}

fn push_integers(words: &mut Vec<u64>, table: &[i64]) {
    words.extend(table.iter().map(|&integer| integer as u64));
}

fn push_numbers(words: &mut Vec<u64>, table: &[f64]) {
    words.extend(table.iter().map(|number| number.to_bits()));
}

/// Blocks of these words: zeros to the end of the last one, number and check on each.
pub fn seal(words: &[u64]) -> Vec<u8> {
    let mut file = Vec::new();
    for (number, words) in words.chunks(BLOCK_WORDS).enumerate() {
        let mut block: Vec<u8> = words.iter().flat_map(|word| word.to_le_bytes()).collect();
        block.resize(8 * BLOCK_WORDS, 0);
        block.extend((number as u32).to_le_bytes());
        block.extend(check(&block).to_le_bytes());
        file.extend(block);
    }
    file
}
