//! Numbers that look random and are the same in every run: xorshift64*.

pub struct Seeded(u64);

impl Seeded {
    pub fn new(seed: u64) -> Seeded {
        // The state must not be 0, and near seeds should not start alike.
        Seeded((seed ^ 0x9E37_79B9_7F4A_7C15).max(1))
    }

    pub fn word(&mut self) -> u32 {
        self.0 ^= self.0 >> 12;
        self.0 ^= self.0 << 25;
        self.0 ^= self.0 >> 27;
        (self.0.wrapping_mul(0x2545_F491_4F6C_DD1D) >> 32) as u32
    }

    /// A number below `end`, which is at least 1.
    pub fn below(&mut self, end: usize) -> usize {
        self.word() as usize % end
    }

    pub fn pick<T: Copy>(&mut self, from: &[T]) -> T {
        from[self.below(from.len())]
    }

    /// That many ranges over 0 to 127, in order, which do not touch.
    pub fn ranges(&mut self, count: usize) -> Vec<(u8, u8)> {
        // Neighbours among 2 * count ascending cuts bound the ranges and the gaps between them.
        let mut cuts = Vec::new();
        while cuts.len() < 2 * count {
            let cut = self.below(129);
            if !cuts.contains(&cut) {
                cuts.push(cut);
            }
        }
        cuts.sort_unstable();
        let bounds = |pair: &[usize]| (pair[0] as u8, (pair[1] - 1) as u8);
        cuts.chunks(2).map(bounds).collect()
    }

    /// Which symbols loop: all but a few, a few ranges, or any.
    pub fn looping(&mut self) -> [bool; 128] {
        let mut loops = [false; 128];
        match self.below(8) {
            0..=2 => {
                loops = [true; 128];
                for _ in 0..self.below(6) {
                    loops[self.below(128)] = false;
                }
            }
            3..=6 => {
                let count = 1 + self.below(5);
                for (low, high) in self.ranges(count) {
                    loops[usize::from(low)..=usize::from(high)].fill(true);
                }
            }
            _ => {
                let dense = 1 + self.below(127);
                loops = loops.map(|_| self.below(128) < dense);
            }
        }
        loops
    }
}

/// The three words of the run of these ranges, one to four of them.
pub fn range_words(ranges: &[(u8, u8)]) -> [u32; 3] {
    let mut words = [5 | (ranges.len() as u32) << 8, 0, 0];
    for (index, &(low, high)) in ranges.iter().enumerate() {
        let pair = u32::from(low) | u32::from(high) << 8;
        words[1 + index / 2] |= pair << (16 * (index % 2));
    }
    words
}
