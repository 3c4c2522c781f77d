//! The speed of updates of the whole ERLE estimator.

use super::blocks::Blocks;
use super::echo::{each_choice, Echo, LENGTH_BLOCKS};
use super::{measure, stream_sum, BLOCKS, ROUNDS};
use crate::kinds::erle::{Erle, Start};
use crate::kinds::ring::Ring;
use crate::kinds::standing::Estimator;
use crate::scripts::erle::start;
use crate::scripts::flags::Flags;
use crate::scripts::part::SETTINGS;
use crate::scripts::random::Random;

extern "C" {
    /// Starts with min 1, max_l 4, max_h 1.5, onset detection and both clamps on, no
    /// startup phase, a filter of 13 blocks and no headroom, runs the blocks, which
    /// lie one after the other in the first four lists, so many rounds in order, and
    /// gives a running sum: of each channel the 65 plain, the 65 compensated and the
    /// 65 uncapped figures, and then the fullband figure. All blocks share one ring
    /// of 20 slots of one render, which each reads from the place that is its number
    /// in the round modulo 20, and the 13 response blocks of each channel.
    fn speed_erle(
        channels: usize,
        sections: usize,
        flags: *const bool,
        flags_length: usize,
        render: *const f32,
        render_length: usize,
        capture: *const f32,
        capture_length: usize,
        residual: *const f32,
        residual_length: usize,
        ring: *const f32,
        ring_length: usize,
        responses: *const f32,
        responses_length: usize,
        blocks: usize,
        rounds: usize,
    ) -> f32;
}

pub fn speed() -> Result<(), String> {
    each_choice([1, 4], |channels, sections, flags, choice| {
        let case = Case::new(channels, sections, flags);
        measure(&format!("erle {choice}"), || case.rust(), || case.port())
    })
}

struct Case {
    blocks: Blocks,
    sections: usize,
    echo: Echo,
}

impl Case {
    fn new(channels: usize, sections: usize, flags: Flags) -> Self {
        Self {
            blocks: Blocks::new(channels, flags),
            sections,
            echo: Echo::new(&mut Random::new(32), channels),
        }
    }

    fn start(&self) -> Start {
        let filter = [self.sections as u32, LENGTH_BLOCKS as u32, 0];
        start(0, SETTINGS[0], self.blocks.channels, filter)
    }

    fn rust(&self) -> f32 {
        let mut erle = Erle::started(&self.start()).expect("accepted settings");
        let mut ring = Ring::new(1, &self.echo.ring);
        let mut places = Echo::places();
        let responses = &self.echo.responses;
        self.blocks.each(|x2, y2, e2, converged| {
            let place = places.next().expect("places without end");
            erle.estimator
                .update(&ring.at(place), responses, x2, y2, e2, converged);
        });
        let erle = &erle.estimator;
        let streams = [erle.erle(false), erle.erle(true), erle.erle_unbounded()];
        stream_sum(&streams) + erle.fullband_erle_log2()
    }

    fn port(&self) -> f32 {
        let blocks = &self.blocks;
        let responses = self.echo.responses.concat();
        let [render, capture, residual, ring, responses] = [
            &blocks.render,
            &blocks.capture,
            &blocks.residual,
            &self.echo.ring,
            &responses,
        ]
        .map(|spectra| spectra.as_flattened());
        // The pointers and lengths are those of the lists, which the port only
        // reads.
        unsafe {
            speed_erle(
                blocks.channels,
                self.sections,
                blocks.flags.as_ptr(),
                blocks.flags.len(),
                render.as_ptr(),
                render.len(),
                capture.as_ptr(),
                capture.len(),
                residual.as_ptr(),
                residual.len(),
                ring.as_ptr(),
                ring.len(),
                responses.as_ptr(),
                responses.len(),
                BLOCKS,
                ROUNDS,
            )
        }
    }
}
