//! Random numbers that are the same on every machine for the same seed.

pub struct Random {
    state: u64,
}

impl Random {
    pub fn new(seed: u64) -> Random {
        Random { state: seed.wrapping_mul(0x9E37_79B9_7F4A_7C15) ^ 0x2545_F491_4F6C_DD1D }
    }

    /// The next number of the series (splitmix).
    pub fn next(&mut self) -> u64 {
        self.state = self.state.wrapping_add(0x9E37_79B9_7F4A_7C15);
        let mut word = self.state;
        word = (word ^ (word >> 30)).wrapping_mul(0xBF58_476D_1CE4_E5B9);
        word = (word ^ (word >> 27)).wrapping_mul(0x94D0_49BB_1331_11EB);
        word ^ (word >> 31)
    }

    /// A number below the limit, which is not 0.
    pub fn below(&mut self, limit: u64) -> u64 {
        self.next() % limit
    }

    /// A number from the first to the last, both included.
    pub fn from_to(&mut self, first: u64, last: u64) -> u64 {
        first + self.below(last - first + 1)
    }

    /// True in this many of a hundred cases.
    pub fn percent(&mut self, chance: u64) -> bool {
        self.below(100) < chance
    }

    /// True in one of this many cases; never for 0.
    pub fn one_in(&mut self, cases: u64) -> bool {
        cases != 0 && self.below(cases) == 0
    }

    pub fn pick<T: Copy>(&mut self, row: &[T]) -> T {
        row[self.below(row.len() as u64) as usize]
    }

    pub fn fill(&mut self, bytes: &mut [u8]) {
        for chunk in bytes.chunks_mut(8) {
            let word = self.next().to_le_bytes();
            chunk.copy_from_slice(&word[..chunk.len()]);
        }
    }

    /// A number of any size: small ones, ones near the limits that the paper names, and any at all.
    pub fn number(&mut self) -> u64 {
        const EDGES: [u64; 22] = [
            0,
            1,
            7,
            8,
            16,
            17,
            255,
            256,
            257,
            511,
            512,
            513,
            8191,
            8192,
            8256,
            16384,
            65535,
            65536,
            65537,
            1 << 32,
            u64::MAX - 1,
            u64::MAX,
        ];
        match self.below(4) {
            0 => self.pick(&EDGES),
            1 => self.below(20),
            2 => self.below(16_400),
            _ => self.next() >> self.below(64),
        }
    }
}
