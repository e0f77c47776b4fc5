//! The carton file and what `key` prints.

use oracle::carton::{decode, encode, key, seal, words_of};
use oracle::cell_u::{cell_u, element, slot};
use oracle::sets::*;

const BLOCK: usize = 512;

fn print(bytes: &[u8]) -> String {
    String::from_utf8(key(bytes)).expect("key prints ASCII")
}

fn refused(number: u8) -> String {
    format!("refused {number}\n")
}

/// What `key` prints for cell U with its set changed.
fn of_set(change: impl FnOnce(&mut JoinedSet)) -> String {
    let mut set = cell_u();
    change(&mut set);
    print(&encode(&set))
}

/// What `key` prints for cell U with its words changed, three blocks of them.
fn of_words(change: impl FnOnce(&mut Vec<u64>)) -> String {
    let mut words = words_of(&cell_u());
    words.resize(189, 0);
    change(&mut words);
    print(&seal(&words))
}

#[test]
fn example_of_document_01() {
    let all_but_012 = |set: &mut JoinedSet| {
        set.strengths.flags = vec![1; 27];
        set.strengths.flags[slot(0, 1, 2)] = 0;
    };
    let expected = "bands 3\n\
                    slot 0 1 2 3fe0000000000000\n\
                    total 0 4008000000000000\n\
                    total 1 0000000000000000\n\
                    total 2 0000000000000000\n";
    assert_eq!(of_set(all_but_012), expected);
}

#[test]
fn listing_goes_by_b_then_k_then_j() {
    let text = of_set(|_| ());
    let lines: Vec<&str> = text.lines().collect();
    assert_eq!(lines.len(), 1 + 27 + 3);
    assert!(lines[1].starts_with("slot 0 0 0 ") && lines[2].starts_with("slot 0 1 0 "));
    assert!(lines[4].starts_with("slot 0 0 1 ") && lines[10].starts_with("slot 1 0 0 "));
    assert_eq!(
        of_set(|set| set.strengths.flags = vec![128; 27])
            .lines()
            .count(),
        4
    );
}

#[test]
fn infinity_and_nan_are_printed() {
    // The product of the frequencies underflows: 64 over 0 at (0,1,2), 0 over 0 elsewhere.
    let tiny = |set: &mut JoinedSet| {
        set.strengths.settings.cutoff = 0.0;
        set.strengths.frequencies = vec![1e-200; 3];
        set.strengths.flags = vec![1; 27];
        set.strengths.flags[slot(0, 1, 2)] = 0;
        set.strengths.flags[slot(1, 1, 2)] = 0;
    };
    let text = of_set(tiny);
    assert!(text.contains("slot 0 1 2 7ff0000000000000\nslot 1 1 2 7ff8000000000000\n"));
    assert!(text.contains("total 0 7ff0000000000000\ntotal 1 7ff8000000000000\n"));
}

#[test]
fn set_comes_back_from_its_carton() {
    let mut set = cell_u();
    set.strengths.settings.anchoring = Anchoring::Averaged;
    set.strengths.symmetry = Symmetry::Symmetrized;
    set.strengths.form = Form::Full;
    set.strengths.force_constants[element(1, 1, 1)] = -7.5;
    set.strengths.flags[3] = 255;
    let words = words_of(&set);
    assert_eq!(words.len(), 170);
    let back = decode(&encode(&set)).expect("a good carton");
    assert_eq!(format!("{back:?}"), format!("{set:?}"));
}

#[test]
fn file_is_10() {
    let good = encode(&cell_u());
    assert_eq!(print(&[]), refused(10));
    assert_eq!(print(&good[..good.len() - 1]), refused(10));
    assert_eq!(print(&[&good[..], &[0]].concat()), refused(10));
    assert_eq!(print(&vec![0; 97 * BLOCK]), refused(10));
    assert_eq!(print(&vec![0; 97 * BLOCK + 1]), refused(10));
    assert_eq!(print(&vec![0; 96 * BLOCK]), refused(11));
    assert_eq!(print(&seal(&vec![0; 96 * 63])), refused(12));
    assert_eq!(print(&seal(&vec![0; 97 * 63])), refused(10));
}

#[test]
fn block_is_11() {
    let good = encode(&cell_u());
    for place in [0, 1, 503, 504, 508, 511, 512, 1_016, 1_020, 1_535] {
        let mut file = good.clone();
        file[place] ^= 0x40;
        assert_eq!(print(&file), refused(11), "{place}");
    }
    // Blocks exchanged: checks right, numbers wrong.
    let exchanged = [&good[BLOCK..2 * BLOCK], &good[..BLOCK], &good[2 * BLOCK..]].concat();
    assert_eq!(print(&exchanged), refused(11));
    // A block behind the last needed one counts too, and comes before the edition.
    let mut behind = seal(&[2; 4 * 63]);
    behind[4 * BLOCK - 1] ^= 1;
    assert_eq!(print(&behind), refused(11));
}

#[test]
fn heading_is_12() {
    assert_eq!(of_words(|_| ()).lines().next(), Some("bands 3"));
    for edition in [0, 2, 1 + (1 << 32), u64::MAX] {
        assert_eq!(of_words(|words| words[0] = edition), refused(12));
    }
    for bit in 3..64 {
        assert_eq!(of_words(|words| words[6] |= 1 << bit), refused(12));
    }
    for measure in 1..6 {
        for value in [
            u64::MAX,
            1 << 63,
            i64::MAX as u64,
            1 << 61,
            1 << 62,
            100_000,
        ] {
            assert_eq!(of_words(|words| words[measure] = value), refused(12));
        }
        // Coming round to the right count modulo 2^64 or 2^32 is no match.
        for power in 32..63 {
            assert_eq!(of_words(|words| words[measure] += 1 << power), refused(12));
        }
    }
    // Too few blocks, too many, and a bit in the padding.
    assert_eq!(of_words(|words| words.truncate(126)), refused(12));
    assert_eq!(of_words(|words| words.push(0)), refused(12));
    for padding in [170, 188] {
        assert_eq!(of_words(|words| words[padding] = 1), refused(12));
        assert_eq!(of_words(|words| words[padding] = 1 << 63), refused(12));
    }
}

#[test]
fn flag_words_above_a_byte_are_12() {
    let all_shortest = 25 + 3 + 3 + 2 + 1 + 1 + 1 + 3 + 3 + 18;
    for place in all_shortest..all_shortest + 29 {
        for value in [256, 1 << 32, u64::MAX] {
            assert_eq!(of_words(|words| words[place] = value), refused(12));
        }
        assert_eq!(
            of_words(|words| words[place] = 255).lines().next(),
            Some("bands 3")
        );
    }
}

/// A set whose tables have the lengths of its measures, all entries zero.
fn blank(measures: Measures) -> JoinedSet {
    let l = Lengths::of(&measures, Form::Compact);
    let integers = |count: u128| vec![0i64; count as usize];
    let numbers = |count: u128| vec![0.0f64; count as usize];
    let flags = |count: u128| vec![0u8; count as usize];
    let mut set = cell_u();
    set.strengths = StrengthsSet {
        measures,
        addresses: integers(l.addresses),
        vectors: numbers(l.vectors),
        multiplicity: integers(l.multiplicity),
        p2s: integers(l.p2s),
        s2p: integers(l.s2p),
        masses: numbers(l.masses),
        bands: integers(l.bands),
        frequencies: numbers(l.frequencies),
        eigenvectors: numbers(l.eigenvectors),
        all_shortest: flags(l.all_shortest),
        nonzero: flags(l.nonzero),
        flags: flags(l.slots),
        force_constants: numbers(l.force_constants),
        ..set.strengths
    };
    set.first_weights = numbers(l.slots);
    set.second_weights = numbers(l.slots);
    set
}

#[test]
fn measures_in_a_carton() {
    let one = cell_u().strengths.measures;
    let key_of = |measures: Measures| print(&encode(&blank(measures)));
    assert_eq!(key_of(Measures { atoms: 0, ..one }), refused(1));
    assert_eq!(
        key_of(Measures {
            supercell: 0,
            ..one
        }),
        refused(1)
    );
    assert_eq!(key_of(Measures { first: 0, ..one }), refused(1));
    assert_eq!(key_of(Measures { grid: 0, ..one }), refused(1));
    assert_eq!(key_of(Measures { vectors: 0, ..one }), refused(1));
    assert_eq!(
        key_of(Measures {
            atoms: 0,
            supercell: 0,
            first: 0,
            grid: 0,
            vectors: 0
        }),
        refused(1)
    );
    assert_eq!(key_of(Measures { first: 4, ..one }), refused(1));
    // Without atoms the other measures may be far beyond their limits and still fit the file.
    let none = Measures { atoms: 0, ..one };
    assert_eq!(
        key_of(Measures {
            supercell: 65,
            ..none
        }),
        refused(1)
    );
    assert_eq!(
        key_of(Measures {
            first: 5_000,
            ..none
        }),
        refused(1)
    );
    // W over 6,144 comes before 1: four atoms, and nine.
    assert_eq!(key_of(Measures { atoms: 4, ..one }), refused(12));
    assert_eq!(
        key_of(Measures {
            atoms: 9,
            first: 1,
            ..one
        }),
        refused(12)
    );
    assert_eq!(key_of(Measures { atoms: 3, ..one }), refused(3));
    // A flag word above a byte comes before 1.
    let mut set = blank(Measures { first: 0, ..one });
    set.strengths.bands.clear();
    let mut words = words_of(&set);
    let nonzero = words.len() - 28;
    words[nonzero] = 256;
    assert_eq!(print(&seal(&words)), refused(12));
}

#[test]
fn doors_numbers_come_through() {
    assert_eq!(of_set(|set| set.strengths.multiplicity[0] = 0), refused(3));
    assert_eq!(
        of_set(|set| set.strengths.eigenvectors[0] = f64::NAN),
        refused(4)
    );
    assert_eq!(of_set(|set| set.strengths.mesh[0] = 0), refused(5));
    assert_eq!(of_set(|set| set.strengths.masses[0] = -0.0), refused(6));
    assert_eq!(
        of_set(|set| set.strengths.settings.cutoff = -1.0),
        refused(7)
    );
    assert_eq!(of_set(|set| set.bath.weight = 0), refused(8));
    assert_eq!(of_set(|set| set.bath.temperature = -0.0), refused(8));
    let far = |set: &mut JoinedSet| {
        set.strengths.addresses[0] = 1;
        set.strengths.vectors[0] = 166_887.0;
    };
    assert_eq!(of_set(far), refused(9));
}

#[test]
fn any_words_are_answered() {
    let mut state = 0x2545_F491_4F6C_DD1Du64;
    let mut next = || {
        state ^= state << 13;
        state ^= state >> 7;
        state ^= state << 17;
        state
    };
    for _ in 0..20_000 {
        let place = next() as usize % 189;
        let value = next() >> (next() % 64);
        assert!(of_words(|words| words[place] = value).ends_with('\n'));
    }
}
