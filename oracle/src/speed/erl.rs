//! The speed of ERL updates.

use super::{measure, spectra, BLOCKS, ROUNDS};
use crate::audio_processing::aec3::erl_estimator::ErlEstimator;
use crate::judge::BANDS;
use crate::scripts::random::Random;

extern "C" {
    /// Starts with startup count 0, runs the blocks, which lie one after the
    /// other in the three lists, so many rounds in order, and gives the sum of
    /// the 65 figures and then the time-domain figure.
    fn speed_erl(
        captures: usize,
        renders: usize,
        flags: *const bool,
        flags_length: usize,
        render: *const f32,
        render_length: usize,
        capture: *const f32,
        capture_length: usize,
        blocks: usize,
        rounds: usize,
    ) -> f32;
}

pub fn speed() -> Result<(), String> {
    for captures in [1, 4] {
        for renders in [1, 2] {
            for mixed in [false, true] {
                let blocks = Blocks::new(captures, renders, mixed);
                let flags = if mixed { "mixed" } else { "converged" };
                let name = format!("erl {captures} captures {renders} renders {flags}");
                measure(&name, || blocks.rust(), || blocks.port())?;
            }
        }
    }
    Ok(())
}

struct Blocks {
    captures: usize,
    renders: usize,
    flags: Vec<bool>,
    render: Vec<[f32; BANDS]>,
    capture: Vec<[f32; BANDS]>,
}

impl Blocks {
    /// Renders on both sides of the threshold and captures from far below them
    /// to somewhat above. Mixed flags are set at random, and now and then none.
    fn new(captures: usize, renders: usize, mixed: bool) -> Self {
        let mut random = Random::new(30);
        let render = spectra(&mut random, BLOCKS * renders, 22, 8);
        let capture = spectra(&mut random, BLOCKS * captures, 18, 13);
        let flags = (0..BLOCKS * captures).map(|_| !mixed || random.below(2) == 0);
        Self {
            captures,
            renders,
            flags: flags.collect(),
            render,
            capture,
        }
    }

    fn rust(&self) -> f32 {
        let mut estimator = ErlEstimator::new(0);
        for _ in 0..ROUNDS {
            for block in 0..BLOCKS {
                estimator.update(
                    &self.flags[block * self.captures..][..self.captures],
                    &self.render[block * self.renders..][..self.renders],
                    &self.capture[block * self.captures..][..self.captures],
                );
            }
        }
        let sum = estimator.erl().iter().fold(0.0, |sum, figure| sum + figure);
        sum + estimator.erl_time_domain()
    }

    fn port(&self) -> f32 {
        let (render, capture) = (self.render.as_flattened(), self.capture.as_flattened());
        // The pointers and lengths are those of the three lists, which the port
        // only reads.
        unsafe {
            speed_erl(
                self.captures,
                self.renders,
                self.flags.as_ptr(),
                self.flags.len(),
                render.as_ptr(),
                render.len(),
                capture.as_ptr(),
                capture.len(),
                BLOCKS,
                ROUNDS,
            )
        }
    }
}
