//! Traces of any size, by which the speed of a listing is measured.

use super::{Script, Settings, EXAMPLE};
use crate::judge::BANDS;
use crate::kinds::call::Call;
use crate::scripts::random::Random;
use std::io::{self, Write};

/// Writes the example's settings for so many channels, and blocks up to at least
/// so many millions of bytes. Nearly all blocks are converged.
pub fn write(megabytes: u64, channels: u8, mut output: impl Write) -> io::Result<()> {
    let mut random = Random::new(90);
    let mut piece = Script::default();
    piece.settings(&Settings {
        channels,
        ..EXAMPLE
    });
    let mut written = 0;
    loop {
        output.write_all(&piece.bytes)?;
        written += piece.bytes.len() as u64;
        if written >= megabytes * 1_000_000 {
            return output.flush();
        }
        piece.bytes.clear();
        piece.block(&block(&mut random, channels.into()));
    }
}

/// Renders mostly above the threshold, and bands' ratios on both sides of the
/// minimum and of the maxima.
fn block(random: &mut Random, channels: usize) -> Call {
    let flags = (0..channels).map(|_| random.below(16) != 0).collect();
    let mut powers = |spectra: usize, least: i32, octaves: u32| -> Vec<f32> {
        let power = |_| {
            let exponent = least + random.below(octaves) as i32;
            random.octave(exponent)
        };
        (0..BANDS * spectra).map(power).collect()
    };
    Call {
        channels: channels as u32,
        flags,
        render: powers(1, 25, 12),
        capture: powers(channels, 20, 6),
        residual: powers(channels, 19, 6),
    }
}
