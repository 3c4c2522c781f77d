//! Scripts of the whole ERLE estimator.

mod borrowed;
mod damaged;
mod phases;
mod rests;
pub mod sample;
mod stretches;

use super::part::{for_each_number_of_channels, SETTINGS};
use super::random::Random;
use super::{signal, Maker};
use crate::kinds::erle::{Call, Erle, Start};
use crate::kinds::{call, signal as signal_kinds};
use signal::{start as signal_start, Filter};

pub use damaged::scripts as damaged_scripts;

type Walk = super::walk::Walk<Erle>;

/// Startup counts: no phase, for which 0 and 1 are alike, short ones, and one
/// whose end no script reaches.
const STARTUPS: [u32; 5] = [0, 1, 2, 5, 1 << 31];

/// How many scripts of random stretches there are.
const STRETCHES: u64 = 16;

pub fn scripts() -> Vec<Maker> {
    let mut makers = for_each_number_of_channels(&[phases::script, rests::script]);
    makers.extend(borrowed::scripts());
    for seed in 0..STRETCHES {
        makers.push(Box::new(move || stretches::script(seed)));
    }
    makers
}

/// Document 01's example, with both clamps: one channel, onset detection on and
/// no startup phase, and one section.
pub fn example_start() -> Start {
    start(0, SETTINGS[0], 1, [1, 1, 0])
}

/// A start with onset detection and both clamps on.
pub fn start(startup: u32, limits: [f32; 3], channels: usize, filter: Filter) -> Start {
    Start {
        startup,
        signal: signal_start(limits, true, channels, filter),
        to_zero: true,
        to_one: true,
    }
}

impl Start {
    pub fn channels(&self) -> usize {
        self.signal.channels()
    }

    /// A converged call in which all the echo is in one section.
    fn lesson(&self, section: usize, ratio: f32) -> Call {
        whole(&self.signal.lesson(section, ratio))
    }

    /// The lesson of a turn: the echo in one section after the other.
    fn lesson_of_turn(&self, turn: usize) -> Call {
        let section = turn % self.signal.sections as usize;
        self.lesson(section, 3.0 + 4.0 * section as f32)
    }

    /// The start with a startup count and clamps at random. Most have no startup
    /// phase, so that what the parts were asked alone meets the same state.
    fn drawn(random: &mut Random, signal: signal_kinds::Start) -> Self {
        Self {
            startup: match random.below(3) {
                0 => random.one_of(&STARTUPS[..4]),
                _ => 0,
            },
            signal,
            to_zero: random.below(3) != 0,
            to_one: random.below(3) != 0,
        }
    }
}

/// A call of the signal-dependent estimator without its averages.
pub fn whole(call: &signal_kinds::Call) -> Call {
    let call = call.clone();
    Call {
        channels: call.channels,
        slots: call.slots,
        renders: call.renders,
        place: call.place,
        response_blocks: call.response_blocks,
        flags: call.flags,
        render: call.render,
        capture: call.capture,
        residual: call.residual,
        ring: call.ring,
        averages: [],
        responses: call.responses,
    }
}

/// A call of a part, with ring and responses of another.
pub fn with_echo(part: &call::Call, echo: &Call) -> Call {
    Call {
        channels: part.channels,
        flags: part.flags.clone(),
        render: part.render.clone(),
        capture: part.capture.clone(),
        residual: part.residual.clone(),
        ..echo.clone()
    }
}
