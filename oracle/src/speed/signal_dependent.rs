//! The speed of signal-dependent updates.

use super::blocks::Blocks;
use super::echo::{each_choice, Echo, LENGTH_BLOCKS};
use super::{measure, spectra, stream_sum, BLOCKS, ROUNDS};
use crate::judge::BANDS;
use crate::kinds::ring::Ring;
use crate::kinds::signal::{Signal, Start};
use crate::kinds::standing::Estimator;
use crate::scripts::flags::Flags;
use crate::scripts::part::SETTINGS;
use crate::scripts::random::Random;
use crate::scripts::signal::start;

extern "C" {
    /// Starts with min 1, max_l 4, max_h 1.5, onset detection on, a filter of 13
    /// blocks and no headroom, runs the blocks, which lie one after the other in
    /// the first four lists, so many rounds in order, and gives the sum over the
    /// channels of the 65 plain and the 65 compensated figures, in this order. All
    /// blocks share one ring of 20 slots of one render, which each reads from the
    /// place that is its number in the round modulo 20; the 13 response blocks of
    /// each channel; and the averages of each channel, which are those of both
    /// streams.
    fn speed_signal_dependent(
        channels: usize,
        sections: usize,
        flags: *const bool,
        flags_length: usize,
        render: *const f32,
        render_length: usize,
        capture: *const f32,
        capture_length: usize,
        residual: *const f32,
        residual_length: usize,
        ring: *const f32,
        ring_length: usize,
        responses: *const f32,
        responses_length: usize,
        averages: *const f32,
        averages_length: usize,
        blocks: usize,
        rounds: usize,
    ) -> f32;
}

pub fn speed() -> Result<(), String> {
    each_choice([2, 8], |channels, sections, flags, choice| {
        let case = Case::new(channels, sections, flags);
        measure(&format!("signal {choice}"), || case.rust(), || case.port())
    })
}

struct Case {
    blocks: Blocks,
    sections: usize,
    echo: Echo,
    averages: Vec<[f32; BANDS]>,
}

impl Case {
    /// Averages are from 1 to 4.
    fn new(channels: usize, sections: usize, flags: Flags) -> Self {
        let mut random = Random::new(32);
        Self {
            blocks: Blocks::new(channels, flags),
            sections,
            echo: Echo::new(&mut random, channels),
            averages: spectra(&mut random, channels, 0, 2),
        }
    }

    fn start(&self) -> Start {
        let filter = [self.sections as u32, LENGTH_BLOCKS as u32, 0];
        start(SETTINGS[0], true, self.blocks.channels, filter)
    }

    fn rust(&self) -> f32 {
        let mut signal = Signal::started(&self.start()).expect("accepted settings");
        let mut ring = Ring::new(1, &self.echo.ring);
        let mut places = Echo::places();
        self.blocks.each(|x2, y2, e2, converged| {
            let place = places.next().expect("places without end");
            signal.estimator.update(
                &ring.at(place),
                &self.echo.responses,
                x2,
                y2,
                e2,
                &self.averages,
                &self.averages,
                converged,
            );
        });
        stream_sum(&[signal.estimator.erle(false), signal.estimator.erle(true)])
    }

    fn port(&self) -> f32 {
        let blocks = &self.blocks;
        let responses = self.echo.responses.concat();
        let [render, capture, residual, ring, responses, averages] = [
            &blocks.render,
            &blocks.capture,
            &blocks.residual,
            &self.echo.ring,
            &responses,
            &self.averages,
        ]
        .map(|spectra| spectra.as_flattened());
        // The pointers and lengths are those of the lists, which the port only
        // reads.
        unsafe {
            speed_signal_dependent(
                blocks.channels,
                self.sections,
                blocks.flags.as_ptr(),
                blocks.flags.len(),
                render.as_ptr(),
                render.len(),
                capture.as_ptr(),
                capture.len(),
                residual.as_ptr(),
                residual.len(),
                ring.as_ptr(),
                ring.len(),
                responses.as_ptr(),
                responses.len(),
                averages.as_ptr(),
                averages.len(),
                BLOCKS,
                ROUNDS,
            )
        }
    }
}
