//! Random and damaged inputs; every one follows from a seed.
//!
//! | Module | What it gives |
//! |---|---|
//! | `pools` | limits of pools, changes of a pool, pools of any table |
//! | `images` | damaged images |
//! | `texts` | histories with valid and damaged lines |

pub mod images;
pub mod pools;
pub mod texts;

/// Numbers that follow from a seed (SplitMix64).
pub struct Random {
    state: u64,
}

impl Random {
    /// Of each seed and round another sequence.
    pub fn new(seed: u64, round: u64) -> Random {
        let mut random = Random { state: seed };
        random.state = random.next() ^ round.wrapping_mul(0xd134_2543_de82_ef95);
        random
    }

    pub fn next(&mut self) -> u64 {
        self.state = self.state.wrapping_add(0x9e37_79b9_7f4a_7c15);
        let mut z = self.state;
        z = (z ^ (z >> 30)).wrapping_mul(0xbf58_476d_1ce4_e5b9);
        z = (z ^ (z >> 27)).wrapping_mul(0x94d0_49bb_1331_11eb);
        z ^ (z >> 31)
    }

    pub fn below(&mut self, bound: u64) -> u64 {
        self.next() % bound
    }

    /// Both ends are among them.
    pub fn between(&mut self, low: u64, high: u64) -> u64 {
        low + self.below(high - low + 1)
    }

    pub fn one_in(&mut self, n: u64) -> bool {
        self.below(n) == 0
    }

    pub fn pick<T: Clone>(&mut self, from: &[T]) -> T {
        from[self.index(from.len())].clone()
    }

    pub fn index(&mut self, length: usize) -> usize {
        self.below(length as u64) as usize
    }

    pub fn bytes(&mut self, count: usize) -> Vec<u8> {
        (0..count).map(|_| self.next() as u8).collect()
    }

    pub fn shuffle<T>(&mut self, values: &mut [T]) {
        for last in (1..values.len()).rev() {
            let other = self.index(last + 1);
            values.swap(last, other);
        }
    }

    /// A size near the one that is needed: often it, else one less or more, none, fewer or many more.
    pub fn size_near(&mut self, needed: usize) -> usize {
        match self.below(12) {
            0 => needed.saturating_sub(1),
            1 => 0,
            2 => self.index(needed + 1),
            3 => needed + 1,
            4 | 5 => needed + 1 + self.index(40),
            6 => needed + self.index(3000),
            _ => needed,
        }
    }
}
