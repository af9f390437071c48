//! Random numbers from a fixed seed, so that a failure comes back.

pub struct Random(u64);

impl Random {
    pub fn new(seed: u64) -> Random {
        Random(seed.wrapping_mul(0x9E37_79B9_7F4A_7C15) | 1)
    }

    pub fn next(&mut self) -> u64 {
        self.0 ^= self.0 << 13;
        self.0 ^= self.0 >> 7;
        self.0 ^= self.0 << 17;
        self.0.wrapping_mul(0x2545_F491_4F6C_DD1D)
    }

    pub fn below(&mut self, end: usize) -> usize {
        ((self.next() >> 32) % end as u64) as usize
    }

    pub fn flag(&mut self) -> bool {
        self.below(2) == 1
    }

    pub fn one_of<T: Copy>(&mut self, list: &[T]) -> T {
        list[self.below(list.len())]
    }

    /// Bytes of which many are 0, 1, 127, 128 or 255.
    pub fn bytes(&mut self, length: usize) -> Vec<u8> {
        (0..length).map(|_| if self.flag() { self.next() as u8 } else { self.one_of(&[0, 1, 127, 128, 255]) }).collect()
    }

    /// Fewer than `end` such bytes.
    pub fn fewer_bytes(&mut self, end: usize) -> Vec<u8> {
        let length = self.below(end);
        self.bytes(length)
    }

    /// A length that is often the exact one, else a little or a lot off.
    pub fn around(&mut self, exact: usize) -> usize {
        match self.below(6) {
            0 => exact.saturating_sub(1),
            1 => self.below(exact + 1),
            2 => exact + 1,
            3 => exact + self.below(40),
            _ => exact,
        }
    }
}
