//! Kinds 0130 to 0133: the subband estimator.

use super::call::Call;
use super::part::{Part, Settings};
use super::standing::Estimator;
use crate::audio_processing::aec3::subband_erle_estimator::{peek_channel, SubbandErleEstimator};
use crate::judge::{self, Judged, BANDS};
use crate::lines::{fields, Lines};

pub type Subband = SubbandErleEstimator;

impl Part for Subband {}

impl Estimator for Subband {
    const NAME: &'static str = "subband";
    const START: u16 = 0x0130;
    type Start = Start;
    type Call = Call;
    type Reset = ();

    fn judge_start(start: &Start) -> Judged {
        judge::erle_start(start.limits(), start.channels)
    }

    fn new(start: &Start) -> Self {
        let mut config = start.config();
        config.erle.onset_detection = start.onset;
        SubbandErleEstimator::new(&config, start.channels as usize)
    }

    fn judge_update(&self, call: &Call) -> Judged {
        judge::erle_update(call, self.erle(false).len())
    }

    fn run(&mut self, call: &Call) {
        let [render, captures, residuals] = call.spectra();
        self.update(&render[0], captures, residuals, &call.flags);
    }

    fn reset(&mut self, (): ()) {
        SubbandErleEstimator::reset(self);
    }

    fn figures(&self, lines: &mut Lines) {
        for c in 0..self.erle(false).len() {
            let shown = [
                self.erle(false),
                self.erle(true),
                self.erle_unbounded(),
                self.erle_onsets(),
            ];
            streams(lines, c, shown.map(|stream| &stream[c]));
            let compensated = peek_channel(self, c).compensated;
            lines.push_hex(format_args!("rawcomp {c}"), compensated);
            state(lines, self, c);
        }
    }
}

/// A channel's figures: plain, compensated, uncapped and those of onsets.
pub fn streams(lines: &mut Lines, c: usize, figures: [&[f32; BANDS]; 4]) {
    for (name, figures) in ["plain", "comp", "unb", "onsets"].iter().zip(figures) {
        lines.push_hex(format_args!("{name} {c}"), figures);
    }
}

/// What a channel holds beside its streams.
pub fn state(lines: &mut Lines, estimator: &Subband, c: usize) {
    let held = peek_channel(estimator, c);
    lines.push(format_args!("points {c} {}", held.points));
    lines.push_hex(format_args!("y2sum {c}"), held.capture_sums);
    lines.push_hex(format_args!("e2sum {c}"), held.residual_sums);
    lines.push_flags(format_args!("low {c}"), held.low_energy);
    lines.push_flags(format_args!("wait {c}"), held.waiting);
    lines.push(format_args!("hold {c} {}", fields(held.holds)));
}

/// The settings of a start.
#[derive(Clone, Copy)]
pub struct Start {
    pub min: f32,
    pub max_l: f32,
    pub max_h: f32,
    pub onset: bool,
    pub channels: u32,
}

impl Settings for Start {
    const SWITCHES: usize = 1;

    fn new([min, max_l, max_h]: [f32; 3], switches: u32, channels: u32) -> Self {
        Self {
            min,
            max_l,
            max_h,
            onset: switches & 1 == 1,
            channels,
        }
    }

    fn limits(&self) -> [f32; 3] {
        [self.min, self.max_l, self.max_h]
    }

    fn switches(&self) -> u32 {
        self.onset as u32
    }

    fn channels(&self) -> u32 {
        self.channels
    }
}
