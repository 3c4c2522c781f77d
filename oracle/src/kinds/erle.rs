//! Kinds 0120 to 0122: the whole ERLE estimator.

use super::standing::Estimator;
use super::{echo_call, fullband, signal, subband};
use crate::audio_processing::aec3::erle_estimator::{peek, ErleEstimator};
use crate::audio_processing::aec3::signal_dependent_erle_estimator as published_signal;
use crate::judge::{self, Judged};
use crate::lines::{fields, Lines};
use crate::record::{field_bytes, Body, Fields, Malformed};

/// One update. The averages of the signal-dependent estimator are the subband
/// estimator's, so none are lent.
pub type Call = echo_call::Call<0>;

/// The published estimator, and the settings that its calls are judged by.
pub struct Erle {
    pub start: Start,
    pub estimator: ErleEstimator,
}

impl Estimator for Erle {
    const NAME: &'static str = "erle";
    const START: u16 = 0x0120;
    type Start = Start;
    type Call = Call;
    type Reset = DelayChanged;

    fn judge_start(start: &Start) -> Judged {
        judge::signal_start(&start.signal)
    }

    fn new(start: &Start) -> Self {
        let mut config = start.signal.config();
        config.erle.clamp_quality_estimate_to_zero = start.to_zero;
        config.erle.clamp_quality_estimate_to_one = start.to_one;
        let channels = start.signal.settings.channels as usize;
        Self {
            start: *start,
            estimator: ErleEstimator::new(start.startup as usize, &config, channels),
        }
    }

    fn judge_update(&self, call: &Call) -> Judged {
        judge::signal_update(call, &self.start.signal)
    }

    fn run(&mut self, call: &Call) {
        let [render, captures, residuals] = call.spectra();
        self.estimator.update(
            &call.ring().at(call.place as usize),
            &call.split_responses(),
            &render[0],
            captures,
            residuals,
            &call.flags,
        );
    }

    fn reset(&mut self, DelayChanged(changed): DelayChanged) {
        self.estimator.reset(changed);
    }

    fn figures(&self, lines: &mut Lines) {
        let erle = &self.estimator;
        let streams = [
            erle.erle(false),
            erle.erle(true),
            erle.erle_unbounded(),
            erle.erle_onsets(),
        ];
        for c in 0..streams[0].len() {
            subband::streams(lines, c, streams.map(|stream| &stream[c]));
        }
        let qualities = erle.get_inst_linear_quality_estimates();
        fullband::full(lines, erle.fullband_erle_log2(), qualities);
    }

    fn state(&self, lines: &mut Lines) {
        let held = peek(&self.estimator);
        lines.push(format_args!("count {}", held.blocks));
        for c in 0..self.estimator.erle(false).len() {
            subband::state(lines, held.subband, c);
            if let Some(signal) = held.signal {
                signal_state(lines, signal, c);
            }
            fullband::state(lines, held.fullband, c);
        }
    }
}

/// What a channel of the signal-dependent estimator holds.
fn signal_state(
    lines: &mut Lines,
    estimator: &published_signal::SignalDependentErleEstimator,
    c: usize,
) {
    let held = published_signal::peek_channel(estimator, c);
    lines.push(format_args!("updates {c} {}", fields(held.updates)));
    lines.push(format_args!("active {c} {}", fields(held.active)));
    lines.push_hex(format_args!("reference {c}"), held.reference);
    lines.push_hex(format_args!("estimates {c}"), held.estimates.as_flattened());
    lines.push_hex(format_args!("factors {c}"), held.factors.as_flattened());
}

/// The settings of a start.
#[derive(Clone, Copy)]
pub struct Start {
    /// The blocks of the startup phase.
    pub startup: u32,
    /// Those that the signal-dependent estimator has too.
    pub signal: signal::Start,
    /// Whether a quality is clamped to zero, and to one.
    pub to_zero: bool,
    pub to_one: bool,
}

impl Start {
    pub fn fields(&self) -> Vec<u32> {
        let mut fields = vec![self.startup];
        fields.extend(self.signal.fields());
        fields.extend([self.to_zero, self.to_one].map(u32::from));
        fields
    }
}

impl Body for Start {
    fn read(mut body: Fields<'_>) -> Result<Self, Malformed> {
        let start = Self {
            startup: body.u32()?,
            signal: signal::Start::read_from(&mut body)?,
            to_zero: body.flag()?,
            to_one: body.flag()?,
        };
        body.end()?;
        Ok(start)
    }

    fn body(&self) -> Vec<u8> {
        field_bytes(&self.fields())
    }
}

/// What a reset says: whether the delay changed. Only then the blocks count anew.
#[derive(Clone, Copy, Default)]
pub struct DelayChanged(pub bool);

impl Body for DelayChanged {
    fn read(mut body: Fields<'_>) -> Result<Self, Malformed> {
        let changed = body.flag()?;
        body.end()?;
        Ok(Self(changed))
    }

    fn body(&self) -> Vec<u8> {
        field_bytes(&[self.0.into()])
    }
}
