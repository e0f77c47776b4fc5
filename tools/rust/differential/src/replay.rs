//! A stream of cartons with the oracle's answers, for the program `key_replay`.

use crate::cartons;
use oracle::carton::{BLOCK, BLOCK_LIMIT};
use std::collections::HashMap;

/// No more of a file matters: a 97th block has begun.
const ENOUGH: usize = BLOCK_LIMIT * BLOCK + 1;
/// Cartons up to this length are taken, longer ones only at every `RARE`th index.
const SHORT: usize = 4 * BLOCK;
const RARE: u64 = 500;
/// Of the cartons with one refusal, at most the `SHARE`th part of all are taken.
const SHARE: usize = 16;

pub struct Stream {
    /// Of each carton its length, four bytes, little-endian, and its bytes.
    pub cartons: Vec<u8>,
    /// What `key` prints for each, one behind the other.
    pub texts: Vec<u8>,
}

/// The first `count` cartons of a seed that are taken.
pub fn stream(seed: u64, count: usize) -> Stream {
    let mut stream = Stream {
        cartons: Vec::new(),
        texts: Vec::new(),
    };
    let mut refused: HashMap<Vec<u8>, usize> = HashMap::new();
    let mut left = count;
    for index in 0.. {
        if left == 0 {
            break;
        }
        let mut bytes = cartons::carton(seed, index).bytes;
        if bytes.len() > SHORT && index % RARE != 0 {
            continue;
        }
        let text = oracle::carton::key(&bytes);
        if text.starts_with(b"refused") {
            let taken = refused.entry(text.clone()).or_default();
            if *taken == count / SHARE {
                continue;
            }
            *taken += 1;
        }
        left -= 1;
        bytes.truncate(ENOUGH);
        stream.cartons.extend((bytes.len() as u32).to_le_bytes());
        stream.cartons.extend(&bytes);
        stream.texts.extend(text);
    }
    stream
}
