//! Random inputs from a seed: the generator known as splitmix64, and what is drawn from it.

/// A stream of random numbers.
pub struct Rng(u64);

impl Rng {
    /// A stream of its own for each kind of call, so that one kind can be run alone.
    pub fn new(seed: u64, stream: &str) -> Rng {
        let mix = |state: u64, byte: u8| Rng(state ^ u64::from(byte)).next();
        Rng(stream.bytes().fold(Rng(seed).next(), mix))
    }

    pub fn next(&mut self) -> u64 {
        self.0 = self.0.wrapping_add(0x9E37_79B9_7F4A_7C15);
        let mut word = self.0;
        word = (word ^ word >> 30).wrapping_mul(0xBF58_476D_1CE4_E5B9);
        word = (word ^ word >> 27).wrapping_mul(0x94D0_49BB_1331_11EB);
        word ^ word >> 31
    }

    /// A number below n, which is not 0.
    pub fn below(&mut self, n: usize) -> usize {
        (self.next() % n as u64) as usize
    }

    /// A number from `least` to `most`.
    pub fn within(&mut self, least: usize, most: usize) -> usize {
        least + self.below(most - least + 1)
    }

    pub fn chance(&mut self, percent: usize) -> bool {
        self.below(100) < percent
    }

    pub fn pick<T: Copy>(&mut self, choices: &[T]) -> T {
        choices[self.below(choices.len())]
    }

    pub fn byte(&mut self) -> u8 {
        self.next() as u8
    }

    pub fn short(&mut self) -> u16 {
        self.next() as u16
    }

    pub fn bytes(&mut self, length: usize) -> Vec<u8> {
        let words = (0..length.div_ceil(8)).flat_map(|_| self.next().to_le_bytes());
        let mut bytes: Vec<u8> = words.collect();
        bytes.truncate(length);
        bytes
    }

    /// A number that counts as yes or as no: 0, or any other.
    pub fn flag(&mut self, yes: bool) -> usize {
        if yes {
            self.pick(&[1, 1, 1, 2, 255, 256, 1 << 32, usize::MAX])
        } else {
            0
        }
    }

    /// A length up to `most`; short ones are more frequent than long ones.
    pub fn length(&mut self, most: usize) -> usize {
        let most = match self.below(100) {
            0..50 => most.min(64),
            50..75 => most.min(400),
            75..90 => most.min(2_000),
            _ => most,
        };
        self.within(0, most)
    }

    /// Bytes lent for `needed` bytes: just so many or more, and at times too few.
    pub fn room(&mut self, needed: usize) -> Vec<u8> {
        let length = match self.below(20) {
            0..8 => needed,
            8..17 => needed + self.within(1, 40),
            17 => needed.saturating_sub(1),
            _ => self.within(0, needed),
        };
        self.bytes(length)
    }

    /// Changes one byte, if there is one.
    pub fn damage(&mut self, bytes: &mut [u8]) {
        if !bytes.is_empty() {
            let at = self.below(bytes.len());
            bytes[at] ^= self.within(1, 255) as u8;
        }
    }

    pub fn shuffle<T>(&mut self, list: &mut [T]) {
        for at in (1..list.len()).rev() {
            list.swap(at, self.below(at + 1));
        }
    }
}
