//! A small generator of numbers (SplitMix64): equal seeds, equal numbers.

pub struct Random {
    state: u64,
}

impl Random {
    pub fn new(seed: u64) -> Self {
        Self { state: seed }
    }

    pub fn u32(&mut self) -> u32 {
        self.state = self.state.wrapping_add(0x9E37_79B9_7F4A_7C15);
        let mut mixed = self.state;
        mixed = (mixed ^ (mixed >> 30)).wrapping_mul(0xBF58_476D_1CE4_E5B9);
        mixed = (mixed ^ (mixed >> 27)).wrapping_mul(0x94D0_49BB_1331_11EB);
        ((mixed ^ (mixed >> 31)) >> 32) as u32
    }

    /// A number below a bound above 0.
    pub fn below(&mut self, bound: u32) -> u32 {
        self.u32() % bound
    }

    /// A number from 0 to below 1.
    pub fn unit(&mut self) -> f32 {
        (self.u32() >> 8) as f32 / 16_777_216.0
    }

    /// A number from 2^exponent, a normal binary32 number, to below twice that.
    pub fn octave(&mut self, exponent: i32) -> f32 {
        f32::from_bits(((exponent + 127) as u32) << 23 | self.u32() >> 9)
    }

    pub fn one_of<T: Copy>(&mut self, choices: &[T]) -> T {
        choices[self.below(choices.len() as u32) as usize]
    }
}
