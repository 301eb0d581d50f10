//! Numbers by chance, the same in every run.

pub struct Chance(u64);

impl Chance {
    pub fn new() -> Chance {
        Chance(0x9e37_79b9_7f4a_7c15)
    }

    pub fn below(&mut self, end: u64) -> u64 {
        self.0 ^= self.0 << 13;
        self.0 ^= self.0 >> 7;
        self.0 ^= self.0 << 17;
        self.0 % end
    }
}
