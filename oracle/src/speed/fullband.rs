//! The speed of fullband updates.

use super::blocks::{Blocks, FLAGS};
use super::{measure, BLOCKS, ROUNDS};
use crate::audio_processing::aec3::fullband_erle_estimator::peek_channel;
use crate::kinds::fullband::{FullBand, Start};
use crate::kinds::standing::Estimator;
use crate::scripts::fullband::example_start;

extern "C" {
    /// Starts with min 1, max_l 4, max_h 1.5 and both clamps on, runs the blocks,
    /// which lie one after the other in the four lists, so many rounds in order,
    /// and gives the sum over the channels of the figure and the quality estimate.
    fn speed_fullband(
        channels: usize,
        flags: *const bool,
        flags_length: usize,
        render: *const f32,
        render_length: usize,
        capture: *const f32,
        capture_length: usize,
        residual: *const f32,
        residual_length: usize,
        blocks: usize,
        rounds: usize,
    ) -> f32;
}

pub fn speed() -> Result<(), String> {
    for channels in [1, 2, 4] {
        for (flags, word) in FLAGS {
            let blocks = Blocks::new(channels, flags);
            let name = format!("fullband {channels} channels {word}");
            measure(&name, || rust(&blocks), || port(&blocks))?;
        }
    }
    Ok(())
}

fn rust(blocks: &Blocks) -> f32 {
    let start = Start {
        channels: blocks.channels as u32,
        ..example_start()
    };
    let mut estimator = FullBand::started(&start).expect("accepted settings");
    blocks.each(|x2, y2, e2, converged| estimator.update(x2, y2, e2, converged));
    (0..blocks.channels).fold(0.0, |sum, channel| {
        let shown = peek_channel(&estimator, channel);
        sum + shown.figure + shown.quality
    })
}

fn port(blocks: &Blocks) -> f32 {
    let (capture, residual) = (
        blocks.capture.as_flattened(),
        blocks.residual.as_flattened(),
    );
    let render = blocks.render.as_flattened();
    // The pointers and lengths are those of the four lists, which the port only
    // reads.
    unsafe {
        speed_fullband(
            blocks.channels,
            blocks.flags.as_ptr(),
            blocks.flags.len(),
            render.as_ptr(),
            render.len(),
            capture.as_ptr(),
            capture.len(),
            residual.as_ptr(),
            residual.len(),
            BLOCKS,
            ROUNDS,
        )
    }
}
