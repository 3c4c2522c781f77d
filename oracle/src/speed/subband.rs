//! The speed of subband updates.

use super::blocks::{Blocks, FLAGS};
use super::{measure, BLOCKS, ROUNDS};
use crate::audio_processing::aec3::subband_erle_estimator::{peek_channel, SubbandErleEstimator};
use crate::kinds::standing::Estimator;
use crate::kinds::subband::{Start, Subband};
use crate::scripts::subband::example_start;

extern "C" {
    /// Starts with min 1, max_l 4 and max_h 1.5, runs the blocks, which lie one
    /// after the other in the four lists, so many rounds in order, and gives the
    /// sum over the channels of the 65 plain, the 65 compensated and the 65
    /// uncapped figures, in this order.
    fn speed_subband(
        channels: usize,
        onset: bool,
        flags: *const bool,
        flags_length: usize,
        render: *const f32,
        render_length: usize,
        capture: *const f32,
        capture_length: usize,
        residual: *const f32,
        residual_length: usize,
        blocks: usize,
        rounds: usize,
    ) -> f32;
}

pub fn speed() -> Result<(), String> {
    for (channels, onset) in [(1, true), (2, true), (4, true), (1, false), (4, false)] {
        for (flags, word) in FLAGS {
            let case = Case {
                blocks: Blocks::new(channels, flags),
                onset,
            };
            let detection = if onset { "on" } else { "off" };
            let name = format!("subband {channels} channels onset {detection} {word}");
            measure(&name, || case.rust(), || case.port())?;
        }
    }
    Ok(())
}

/// A case: the blocks, and whether onsets are detected.
struct Case {
    blocks: Blocks,
    onset: bool,
}

impl Case {
    fn rust(&self) -> f32 {
        let start = Start {
            onset: self.onset,
            channels: self.blocks.channels as u32,
            ..example_start()
        };
        let mut estimator = Subband::started(&start).expect("accepted settings");
        self.blocks
            .each(|x2, y2, e2, converged| estimator.update(x2, y2, e2, converged));
        figure_sum(&estimator)
    }

    fn port(&self) -> f32 {
        let blocks = &self.blocks;
        let (capture, residual) = (
            blocks.capture.as_flattened(),
            blocks.residual.as_flattened(),
        );
        let render = blocks.render.as_flattened();
        // The pointers and lengths are those of the four lists, which the port
        // only reads.
        unsafe {
            speed_subband(
                blocks.channels,
                self.onset,
                blocks.flags.as_ptr(),
                blocks.flags.len(),
                render.as_ptr(),
                render.len(),
                capture.as_ptr(),
                capture.len(),
                residual.as_ptr(),
                residual.len(),
                BLOCKS,
                ROUNDS,
            )
        }
    }
}

fn figure_sum(estimator: &SubbandErleEstimator) -> f32 {
    let mut sum = 0.0;
    for channel in 0..estimator.erle(false).len() {
        for figures in [
            &estimator.erle(false)[channel],
            peek_channel(estimator, channel).compensated,
            &estimator.erle_unbounded()[channel],
        ] {
            sum = figures.iter().fold(sum, |sum, figure| sum + figure);
        }
    }
    sum
}
