//! The blocks on which an ERLE estimator is timed.

use super::{spectra, BLOCKS, ROUNDS};
use crate::judge::BANDS;
use crate::scripts::flags::Flags;
use crate::scripts::random::Random;

/// How the flags lie, with the word for it.
pub const FLAGS: [(Flags, &str); 3] = [
    (Flags::All, "converged"),
    (Flags::None, "quiet"),
    (Flags::Any, "mixed"),
];

pub struct Blocks {
    pub channels: usize,
    pub flags: Vec<bool>,
    pub render: Vec<[f32; BANDS]>,
    pub capture: Vec<[f32; BANDS]>,
    pub residual: Vec<[f32; BANDS]>,
}

impl Blocks {
    /// Renders mostly above the threshold, and bands' ratios on both sides of
    /// the minimum and of the maxima.
    pub fn new(channels: usize, flags: Flags) -> Self {
        let mut random = Random::new(31);
        let count = BLOCKS * channels;
        let block_flags = (0..BLOCKS).flat_map(|_| flags.draw(&mut random, channels));
        let flags = block_flags.collect();
        Self {
            channels,
            flags,
            render: spectra(&mut random, BLOCKS, 25, 12),
            capture: spectra(&mut random, count, 20, 6),
            residual: spectra(&mut random, count, 19, 6),
        }
    }

    /// Hands over the blocks in order, and that so many rounds: render, captures,
    /// residuals and flags.
    pub fn each(
        &self,
        mut update: impl FnMut(&[f32; BANDS], &[[f32; BANDS]], &[[f32; BANDS]], &[bool]),
    ) {
        for _ in 0..ROUNDS {
            for block in 0..BLOCKS {
                let from = block * self.channels;
                update(
                    &self.render[block],
                    &self.capture[from..][..self.channels],
                    &self.residual[from..][..self.channels],
                    &self.flags[from..][..self.channels],
                );
            }
        }
    }
}
