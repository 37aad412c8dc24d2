//! Random numbers that a seed repeats (the SplitMix64 sequence).

/// The seed unless another is asked for.
pub const DEFAULT_SEED: u64 = 260_560_830;

pub struct Rng {
    state: u64,
}

impl Rng {
    /// A sequence that depends on the seed alone.
    pub fn new(seed: u64) -> Rng {
        Rng { state: seed }
    }

    /// The next 64 random bits.
    pub fn word(&mut self) -> u64 {
        self.state = self.state.wrapping_add(0x9E37_79B9_7F4A_7C15);
        let mut mixed = self.state;
        mixed = (mixed ^ (mixed >> 30)).wrapping_mul(0xBF58_476D_1CE4_E5B9);
        mixed = (mixed ^ (mixed >> 27)).wrapping_mul(0x94D0_49BB_1331_11EB);
        mixed ^ (mixed >> 31)
    }

    /// A random number below `bound`, which is not 0.
    pub fn below(&mut self, bound: usize) -> usize {
        (self.word() % bound as u64) as usize
    }

    /// A random number from `low` to `high`, both possible.
    pub fn between(&mut self, low: usize, high: usize) -> usize {
        low + self.below(high - low + 1)
    }

    /// True once in `times` on average.
    pub fn one_in(&mut self, times: usize) -> bool {
        self.below(times) == 0
    }

    /// A random byte.
    pub fn byte(&mut self) -> u8 {
        self.word() as u8
    }

    /// One of the things given, which are not none.
    pub fn pick<T: Copy>(&mut self, things: &[T]) -> T {
        things[self.below(things.len())]
    }

    /// One of the things given, each as often as its share says.
    pub fn pick_by_share<T: Copy>(&mut self, things: &[(usize, T)]) -> T {
        let turns: usize = things.iter().map(|(share, _)| share).sum();
        let mut turn = self.below(turns);
        for (share, thing) in things {
            if turn < *share {
                return *thing;
            }
            turn -= share;
        }
        unreachable!("a turn below the sum of the shares")
    }
}
