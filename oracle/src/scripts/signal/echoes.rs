//! Rings and responses by their manner.

use crate::judge::BANDS;
use crate::scripts::random::Random;
use crate::scripts::spectra::{any_power, power, Power, Spectrum};

/// How the spectra of a ring, or of a channel's response blocks, lie.
#[derive(Clone, Copy)]
pub enum Echo {
    Ones,
    /// Not far from 1.
    Near,
    /// Each band falls at its own rate from block to block.
    Decaying,
    /// Each band has most of its power in one block.
    OneBlock,
    Wide,
    /// About 2^64, so that products lie about the greatest binary32 number.
    Huge,
    /// Products and halves that are subnormal.
    Tiny,
    Special,
    Silent,
}

pub const RINGS: [Echo; 8] = [
    Echo::Ones,
    Echo::Ones,
    Echo::Near,
    Echo::OneBlock,
    Echo::Wide,
    Echo::Huge,
    Echo::Tiny,
    Echo::Special,
];

pub const RESPONSES: [Echo; 9] = [
    Echo::Near,
    Echo::Decaying,
    Echo::Decaying,
    Echo::OneBlock,
    Echo::OneBlock,
    Echo::Wide,
    Echo::Huge,
    Echo::Special,
    Echo::Silent,
];

impl Echo {
    pub fn draw(self, random: &mut Random, count: usize) -> Vec<Spectrum> {
        let mut spectra = vec![[0.0; BANDS]; count];
        for band in 0..BANDS {
            let loud = random.below(count.max(1) as u32) as usize;
            let rate = 3.0 * random.unit();
            for (block, spectrum) in spectra.iter_mut().enumerate() {
                spectrum[band] = match self {
                    Self::Decaying => random.octave(0) * (-rate * block as f32).exp2(),
                    Self::OneBlock if block == loud => random.octave(1),
                    Self::OneBlock => random.unit() / 32.0,
                    _ => self.value(random),
                };
            }
        }
        spectra
    }

    fn value(self, random: &mut Random) -> f32 {
        let mut octaves = |least: i32, below: u32| {
            let exponent = least + random.below(below) as i32;
            random.octave(exponent)
        };
        match self {
            Self::Near => octaves(-4, 8),
            Self::Huge => octaves(58, 9),
            Self::Tiny => f32::from_bits(random.below(9)),
            Self::Wide => any_power(random),
            Self::Special => power(random, Power::Special),
            Self::Silent => random.one_of(&[0.0, -0.0]),
            _ => 1.0,
        }
    }
}
