//! A generator of its own, so that a set depends on its seed, door and index alone.

/// xoshiro256++, its state filled by splitmix64.
pub struct Random([u64; 4]);

fn splitmix(state: &mut u64) -> u64 {
    *state = state.wrapping_add(0x9E37_79B9_7F4A_7C15);
    let mut z = *state;
    z = (z ^ (z >> 30)).wrapping_mul(0xBF58_476D_1CE4_E5B9);
    z = (z ^ (z >> 27)).wrapping_mul(0x94D0_49BB_1331_11EB);
    z ^ (z >> 31)
}

impl Random {
    /// The generator of one set: `stream` tells the doors apart.
    pub fn of(seed: u64, stream: u64, index: u64) -> Random {
        let mut state = seed;
        for part in [stream, index] {
            state = splitmix(&mut state) ^ part.wrapping_mul(0xD6E8_FEB8_6659_FD93);
        }
        Random(std::array::from_fn(|_| splitmix(&mut state)))
    }

    pub fn bits(&mut self) -> u64 {
        let [a, b, c, d] = &mut self.0;
        let answer = a.wrapping_add(*d).rotate_left(23).wrapping_add(*a);
        let shifted = *b << 17;
        *c ^= *a;
        *d ^= *b;
        *b ^= *c;
        *a ^= *d;
        *c ^= shifted;
        *d = d.rotate_left(45);
        answer
    }

    /// Below `count`, which is at least 1.
    pub fn below(&mut self, count: usize) -> usize {
        (self.bits() % count as u64) as usize
    }

    /// Low to high, both included.
    pub fn between(&mut self, low: i64, high: i64) -> i64 {
        low + (self.bits() % (high - low + 1) as u64) as i64
    }

    /// True once in `one_in` times.
    pub fn chance(&mut self, one_in: u64) -> bool {
        self.bits().is_multiple_of(one_in)
    }

    /// From 0, below 1.
    pub fn part(&mut self) -> f64 {
        (self.bits() >> 11) as f64 / (1u64 << 53) as f64
    }

    /// From −1, below 1.
    pub fn unit(&mut self) -> f64 {
        2.0 * self.part() - 1.0
    }

    pub fn pick<T: Copy>(&mut self, choices: &[T]) -> T {
        choices[self.below(choices.len())]
    }

    /// Place of a choice, each as likely as its weight.
    pub fn weighted(&mut self, weights: &[usize]) -> usize {
        let mut left = self.below(weights.iter().sum());
        for (place, &weight) in weights.iter().enumerate() {
            if left < weight {
                return place;
            }
            left -= weight;
        }
        unreachable!("the weights' sum is above every draw")
    }

    /// First, middle, last or any place of a table that is not empty.
    pub fn place(&mut self, length: usize) -> usize {
        match self.below(4) {
            0 => 0,
            1 => length / 2,
            2 => length - 1,
            _ => self.below(length),
        }
    }
}
