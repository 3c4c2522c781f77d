//! Traces, good and bad.

pub mod big;
mod damaged;
mod draft;
mod faults;
mod longer;
mod random;
pub mod stored;

use super::part::{converged, SETTINGS as LIMITS};
use super::spectra::LOUD;
use super::{made, Maker, Script};
use crate::judge::CAPTURE_CHANNELS;
use crate::kinds::call::Call;
use crate::kinds::erle::DelayChanged;
use crate::scripts::part::POINTS;
use crate::trace::records::{block_body, Settings, BLOCK, RESET, SETTINGS};

#[cfg(test)]
pub use damaged::drafts;
pub use damaged::traces as damaged_traces;

/// Startup counts: no phase, for which 0 and 1 are alike, and short ones.
const STARTUPS: [u32; 4] = [0, 1, 2, 5];

/// How many random traces there are.
const RANDOM: u64 = 3_000;

/// How many random traces arrive in pieces.
const PIECEWISE: u64 = 400;

/// How far apart the ends are at which the example is cut that arrives in pieces.
const CUT_STEP: usize = 19;

/// Document 01's example.
pub fn sample() -> Script {
    let mut script = settled(&EXAMPLE);
    (0..POINTS).for_each(|_| script.block(&converged(1, LOUD, 3.0, 1.0)));
    script
}

/// A longer one, stored beside it to be printed.
pub fn shown() -> Script {
    longer::shown()
}

/// The settings of document 01's example.
const EXAMPLE: Settings = Settings {
    limits: LIMITS[0],
    channels: 1,
    onset: true,
    startup: 0,
    band: 20,
};

/// The example cut so that each number of bytes is left once, from one to all.
pub fn cuts() -> Vec<Maker> {
    let sample = sample();
    made(
        (1..=sample.bytes.len())
            .map(|end| sample.cut(end))
            .collect(),
    )
}

/// Long traces: one for each choice of channels, onset detection and startup
/// count, and one whose block numbers have five digits.
pub fn longer() -> Vec<Maker> {
    let mut makers: Vec<Maker> = Vec::new();
    for channels in CAPTURE_CHANNELS {
        for onset in [true, false] {
            for startup in STARTUPS {
                let settings = longer::settings(channels as u8, onset, startup);
                makers.push(Box::new(move || longer::trace(&settings)));
            }
        }
    }
    makers.push(Box::new(longer::many_blocks));
    makers
}

/// Traces that arrive in pieces: random ones beside those of `random`, and the example with its end cut off at many places.
pub fn in_pieces() -> Vec<Maker> {
    let maker = |seed| -> Maker { Box::new(move || random::trace(seed)) };
    let mut makers: Vec<Maker> = (RANDOM..RANDOM + PIECEWISE).map(maker).collect();
    let sample = sample();
    let ends = (1..=sample.bytes.len()).step_by(CUT_STEP);
    makers.extend(made(ends.map(|end| sample.cut(end)).collect()));
    makers
}

pub fn random() -> Vec<Maker> {
    let maker = |seed| -> Maker { Box::new(move || random::trace(seed)) };
    (0..RANDOM).map(maker).collect()
}

/// A trace of settings alone.
fn settled(settings: &Settings) -> Script {
    let mut script = Script::default();
    script.settings(settings);
    script
}

impl Script {
    fn settings(&mut self, settings: &Settings) {
        self.whole(SETTINGS, &settings.body());
    }

    fn block(&mut self, call: &Call) {
        self.whole(BLOCK, &block_body(call));
    }

    /// A reset of a trace.
    fn delay(&mut self, DelayChanged(changed): DelayChanged) {
        self.whole(RESET, &[changed.into()]);
    }
}
