//! Random numbers (splitmix64) that a seed repeats.

pub struct Random {
    state: u64,
}

impl Random {
    pub fn new(seed: u64) -> Random {
        Random { state: seed }
    }

    pub fn next(&mut self) -> u64 {
        self.state = self.state.wrapping_add(0x9E37_79B9_7F4A_7C15);
        let mut z = self.state;
        z = (z ^ z >> 30).wrapping_mul(0xBF58_476D_1CE4_E5B9);
        z = (z ^ z >> 27).wrapping_mul(0x94D0_49BB_1331_11EB);
        z ^ z >> 31
    }

    /// From 0 up to but without n.
    pub fn below(&mut self, n: usize) -> usize {
        (self.next() % n as u64) as usize
    }

    /// Once in n times.
    pub fn once_in(&mut self, n: usize) -> bool {
        self.below(n) == 0
    }

    pub fn one_of<T: Copy>(&mut self, these: &[T]) -> T {
        these[self.below(these.len())]
    }

    pub fn bytes(&mut self, n: usize) -> Vec<u8> {
        (0..n).map(|_| self.next() as u8).collect()
    }

    pub fn numbers(&mut self, n: usize) -> Vec<u32> {
        (0..n).map(|_| self.next() as u32).collect()
    }

    /// A number around a limit, or a small one, or one that is far too large.
    pub fn around(&mut self, limit: usize) -> usize {
        match self.below(8) {
            0 => 0,
            1 => self.below(limit.saturating_add(3)),
            2 => limit.saturating_sub(1),
            3 => limit,
            4 => limit.saturating_add(1),
            5 => self.below(8),
            6 => self.below(limit.max(1)),
            _ => self.one_of(&[usize::MAX, usize::MAX - 1, 1 << 63, 1 << 32, (1 << 32) + 1, u32::MAX as usize, 1 << 61, 65_536]),
        }
    }

    /// An order from 2 to 6; now and then another.
    pub fn order(&mut self) -> usize {
        if self.once_in(16) {
            return self.one_of(&[0, 1, 7, 8, 9, 16, 258, 65_538, (1 << 32) + 2, (1 << 32) + 3, 1 << 63, usize::MAX]);
        }
        2 + self.below(5)
    }

    /// Stoppers from 1 to 254; now and then others.
    pub fn stoppers(&mut self) -> usize {
        if self.once_in(16) {
            return self.one_of(&[0, 255, 256, 257, 384, 65_664, 1 << 32, (1 << 32) + 128, 1 << 63, (1 << 63) + 128, usize::MAX]);
        }
        if self.once_in(2) { self.one_of(&[1, 2, 127, 128, 129, 200, 253, 254]) } else { 1 + self.below(254) }
    }

    /// The length of an output that needs so many elements: too short, exact or longer.
    pub fn room(&mut self, need: usize) -> usize {
        match self.below(8) {
            0 => 0,
            1 | 2 => need.saturating_sub(1),
            3 => need + 1,
            4 => need + self.below(40),
            5 => self.below(need + 1),
            _ => need,
        }
    }
}
