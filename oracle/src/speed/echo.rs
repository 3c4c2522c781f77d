//! The ring and the responses on which an estimator that looks at the echo is
//! timed.

use super::blocks::FLAGS;
use super::{spectra, BLOCKS};
use crate::judge::BANDS;
use crate::scripts::flags::Flags;
use crate::scripts::random::Random;

pub const SLOTS: usize = 20;
pub const LENGTH_BLOCKS: usize = 13;

/// Measures every choice of channels, of these sections, and of flags: a closure
/// takes them and the name of the choice behind the estimator's.
pub fn each_choice(
    sections: [usize; 2],
    measure: impl Fn(usize, usize, Flags, &str) -> Result<(), String>,
) -> Result<(), String> {
    for channels in [1, 4] {
        for sections in sections {
            for (flags, word) in FLAGS {
                let name = format!("{channels} channels {sections} sections {word}");
                measure(channels, sections, flags, &name)?;
            }
        }
    }
    Ok(())
}

pub struct Echo {
    /// One render in each slot.
    pub ring: Vec<[f32; BANDS]>,
    /// The response blocks of each channel.
    pub responses: Vec<Vec<[f32; BANDS]>>,
}

impl Echo {
    /// Responses that fall from block to block, in each band at a rate of its own,
    /// so that the bands' active sections differ.
    pub fn new(random: &mut Random, channels: usize) -> Self {
        let mut response = |_| {
            let mut blocks = spectra(random, LENGTH_BLOCKS, -1, 2);
            for band in 0..BANDS {
                let rate = 3.0 * random.unit();
                for (block, spectrum) in blocks.iter_mut().enumerate() {
                    spectrum[band] *= (-rate * block as f32).exp2();
                }
            }
            blocks
        };
        Self {
            responses: (0..channels).map(&mut response).collect(),
            ring: spectra(random, SLOTS, 22, 6),
        }
    }

    /// The place from which each block reads the ring, round after round.
    pub fn places() -> impl Iterator<Item = usize> {
        (0..BLOCKS).map(|block| block % SLOTS).cycle()
    }
}
