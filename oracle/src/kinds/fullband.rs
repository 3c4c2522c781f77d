//! Kinds 0150 to 0153: the fullband estimator.

use super::call::Call;
use super::part::{Part, Settings};
use super::standing::Estimator;
use crate::audio_processing::aec3::fullband_erle_estimator::{peek_channel, FullBandErleEstimator};
use crate::judge::{self, Judged};
use crate::lines::{fields, Hex, Lines, Optional};

/// Decibels in a unit of log2, by document 01; the published Rust has no such
/// figure.
const DECIBELS_PER_LOG2: f32 = 3.0;

pub type FullBand = FullBandErleEstimator;

impl Part for FullBand {}

impl Estimator for FullBand {
    const NAME: &'static str = "fullband";
    const START: u16 = 0x0150;
    type Start = Start;
    type Call = Call;
    type Reset = ();

    fn judge_start(start: &Start) -> Judged {
        judge::erle_start(start.limits(), start.channels)
    }

    fn new(start: &Start) -> Self {
        let mut config = start.config();
        config.erle.clamp_quality_estimate_to_zero = start.to_zero;
        config.erle.clamp_quality_estimate_to_one = start.to_one;
        FullBandErleEstimator::new(&config.erle, start.channels as usize)
    }

    fn judge_update(&self, call: &Call) -> Judged {
        judge::erle_update(call, self.get_linear_quality_estimates().len())
    }

    fn run(&mut self, call: &Call) {
        let [render, captures, residuals] = call.spectra();
        self.update(&render[0], captures, residuals, &call.flags);
    }

    fn reset(&mut self, (): ()) {
        FullBandErleEstimator::reset(self);
    }

    fn figures(&self, lines: &mut Lines) {
        let qualities = self.get_linear_quality_estimates();
        full(lines, self.fullband_erle_log2(), qualities);
        for c in 0..qualities.len() {
            state(lines, self, c);
        }
    }
}

/// The figure of all channels, also in decibels, and the channels' qualities.
pub fn full(lines: &mut Lines, log2: f32, qualities: &[Option<f32>]) {
    lines.push(format_args!(
        "full {} {} {}",
        Hex(log2),
        Hex(DECIBELS_PER_LOG2 * log2),
        fields(qualities.iter().map(|&quality| Optional(quality)))
    ));
}

/// What a channel holds.
pub fn state(lines: &mut Lines, estimator: &FullBand, c: usize) {
    let held = peek_channel(estimator, c);
    lines.push(format_args!(
        "fullstate {c} {} {} {} {} {} {} {} {} {}",
        held.hold,
        held.points,
        Hex(held.figure),
        Hex(held.capture_sum),
        Hex(held.residual_sum),
        Hex(held.greatest),
        Hex(held.least),
        Optional(held.log2),
        Hex(held.quality)
    ));
}

/// The settings of a start.
#[derive(Clone, Copy)]
pub struct Start {
    pub min: f32,
    pub max_l: f32,
    pub max_h: f32,
    /// Whether a quality is clamped to zero, and to one.
    pub to_zero: bool,
    pub to_one: bool,
    pub channels: u32,
}

impl Settings for Start {
    const SWITCHES: usize = 2;

    fn new([min, max_l, max_h]: [f32; 3], switches: u32, channels: u32) -> Self {
        Self {
            min,
            max_l,
            max_h,
            to_zero: switches & 1 == 1,
            to_one: switches >> 1 & 1 == 1,
            channels,
        }
    }

    fn limits(&self) -> [f32; 3] {
        [self.min, self.max_l, self.max_h]
    }

    fn switches(&self) -> u32 {
        self.to_zero as u32 | (self.to_one as u32) << 1
    }

    fn channels(&self) -> u32 {
        self.channels
    }
}
