//! Random numbers from a seed.

/// How many messages in a hundred a node sends to itself.
const TO_ONESELF: usize = 10;

/// Splitmix64.
pub struct Rng(u64);

impl Rng {
    pub fn new(seed: u64) -> Self {
        Self(seed)
    }

    pub fn word(&mut self) -> u64 {
        self.0 = self.0.wrapping_add(0x9e37_79b9_7f4a_7c15);
        let mut z = self.0;
        z = (z ^ (z >> 30)).wrapping_mul(0xbf58_476d_1ce4_e5b9);
        z = (z ^ (z >> 27)).wrapping_mul(0x94d0_49bb_1331_11eb);
        z ^ (z >> 31)
    }

    /// A number from 0 to `bound` - 1.
    pub fn below(&mut self, bound: usize) -> usize {
        (self.word() % bound as u64) as usize
    }

    pub fn chance(&mut self, percent: usize) -> bool {
        self.below(100) < percent
    }

    pub fn pick<T: Copy>(&mut self, from: &[T]) -> T {
        from[self.below(from.len())]
    }

    /// A node below `n`, which is above 1, other than `i`.
    pub fn other_node(&mut self, n: usize, i: usize) -> usize {
        (i + 1 + self.below(n - 1)) % n
    }

    /// The other end of a message that `i` sends or receives: about one time in ten, and where it is alone, `i` itself.
    pub fn other_end(&mut self, n: usize, i: usize) -> usize {
        if n == 1 || self.chance(TO_ONESELF) {
            i
        } else {
            self.other_node(n, i)
        }
    }

    /// A node below `n` of which `wanted` holds, searched from a random one on.
    pub fn node(&mut self, n: usize, wanted: impl Fn(usize) -> bool) -> Option<usize> {
        let first = self.below(n);
        (0..n).map(|k| (first + k) % n).find(|&i| wanted(i))
    }
}
