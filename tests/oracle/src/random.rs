//! Random numbers from a seed: the same seed gives the same script everywhere.

pub struct Random(u64);

impl Random {
    pub fn new(seed: u64) -> Random {
        Random(seed)
    }

    /// Any 64 bits (the mixing known as splitmix64).
    pub fn bits(&mut self) -> u64 {
        self.0 = self.0.wrapping_add(0x9E37_79B9_7F4A_7C15);
        let mut mixed = self.0;
        mixed = (mixed ^ mixed >> 30).wrapping_mul(0xBF58_476D_1CE4_E5B9);
        mixed = (mixed ^ mixed >> 27).wrapping_mul(0x94D0_49BB_1331_11EB);
        mixed ^ mixed >> 31
    }

    /// A number below `end`; 0 where `end` is 0.
    pub fn below(&mut self, end: u64) -> u64 {
        if end == 0 {
            0
        } else {
            self.bits() % end
        }
    }

    /// A number from `low` to `high`, both included.
    pub fn within(&mut self, low: u64, high: u64) -> u64 {
        low + self.below(high - low + 1)
    }

    /// True in so many cases of a hundred.
    pub fn chance(&mut self, percent: u64) -> bool {
        self.below(100) < percent
    }

    pub fn pick<T: Copy>(&mut self, from: &[T]) -> T {
        from[self.below(from.len() as u64) as usize]
    }

    /// One of them, if there is one.
    pub fn choose<T: Copy>(&mut self, from: &[T]) -> Option<T> {
        if from.is_empty() {
            None
        } else {
            Some(self.pick(from))
        }
    }

    /// An index, each as often as its weight says.
    pub fn weighted(&mut self, weights: &[u64]) -> usize {
        let mut left = self.below(weights.iter().sum());
        for (index, weight) in weights.iter().enumerate() {
            if left < *weight {
                return index;
            }
            left -= weight;
        }
        0
    }

    /// One bit of a number of so many bits, mostly the highest.
    pub fn one_bit(&mut self, width: u64) -> u64 {
        let any = self.below(width);
        1 << self.pick(&[width - 1, width - 1, any])
    }

    /// The number with a higher bit set too: the same to whom takes too few bits of it.
    pub fn lifted(&mut self, number: u64) -> u64 {
        number | 1 << self.pick(&[8, 16, 32, 63])
    }

    /// A number at the edge of some range, or of a random width.
    pub fn edge(&mut self) -> u64 {
        const EDGES: [u64; 18] = [
            0,
            1,
            2,
            3,
            15,
            16,
            63,
            64,
            1023,
            1024,
            1025,
            4096,
            32_767,
            32_768,
            65_536,
            1 << 32,
            1 << 63,
            u64::MAX,
        ];
        if self.chance(60) {
            self.pick(&EDGES)
        } else {
            let shift = self.below(64);
            self.bits() >> shift
        }
    }
}
