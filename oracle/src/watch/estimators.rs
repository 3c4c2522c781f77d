//! The figures of each estimator and the bounds in which they lie.

use super::limits::Limits;
use super::seen::{Bounds, Seen, FINITE};
use crate::audio_processing::aec3::erle_estimator::peek;
use crate::audio_processing::aec3::fullband_erle_estimator as published_fullband;
use crate::audio_processing::aec3::signal_dependent_erle_estimator as published_signal;
use crate::audio_processing::aec3::subband_erle_estimator as published_subband;
use crate::judge::BANDS;
use crate::kinds::erle::Erle;
use crate::kinds::fullband::FullBand;
use crate::kinds::signal::Signal;
use crate::kinds::standing::{Estimator, Started};
use crate::kinds::subband::Subband;

/// An estimator whose figures are watched.
pub trait Watched: Estimator {
    /// Looks at the figures of all channels, in the bounds that the start sets.
    fn look(started: &Started<Self>, seen: &mut Seen);
}

/// The whole estimator: what it answers, and its parts.
impl Watched for Erle {
    fn look(Started { start, estimator }: &Started<Self>, seen: &mut Seen) {
        let limits = Limits::of(&start.signal.settings);
        let erle = &estimator.estimator;
        let held = peek(erle);
        let band = |band| limits.band(band);
        streams(seen, "plain", erle.erle(false), band);
        streams(seen, "comp", erle.erle(true), band);
        match held.signal {
            Some(_) => streams(seen, "unb", erle.erle_unbounded(), band),
            None => streams(seen, "unb", erle.erle_unbounded(), |_| limits.uncapped()),
        }
        streams(seen, "onsets", erle.erle_onsets(), |_| limits.minimum());
        subband(held.subband, &limits, seen);
        if let Some(estimator) = held.signal {
            signal(estimator, &limits, seen);
        }
        fullband(held.fullband, &limits, start.to_zero && start.to_one, seen);
    }
}

impl Watched for Signal {
    fn look(Started { start, estimator }: &Started<Self>, seen: &mut Seen) {
        signal(&estimator.estimator, &Limits::of(&start.settings), seen);
    }
}

impl Watched for Subband {
    fn look(Started { start, estimator }: &Started<Self>, seen: &mut Seen) {
        subband(estimator, &Limits::of(start), seen);
    }
}

impl Watched for FullBand {
    fn look(Started { start, estimator }: &Started<Self>, seen: &mut Seen) {
        let clamped = start.to_zero && start.to_one;
        fullband(estimator, &Limits::of(start), clamped, seen);
    }
}

/// A stream of all channels.
fn streams(
    seen: &mut Seen,
    name: &'static str,
    stream: &[[f32; BANDS]],
    bounds: impl Fn(usize) -> Bounds,
) {
    for (c, figures) in stream.iter().enumerate() {
        seen.see(name, c, figures, &bounds);
    }
}

/// Also the compensated stream that is not answered where onset detection is off.
fn subband(estimator: &Subband, limits: &Limits, seen: &mut Seen) {
    let band = |band| limits.band(band);
    streams(seen, "subplain", estimator.erle(false), band);
    for c in 0..estimator.erle(false).len() {
        let held = published_subband::peek_channel(estimator, c);
        seen.see("rawcomp", c, held.compensated, band);
    }
    let uncapped = estimator.erle_unbounded();
    streams(seen, "subunb", uncapped, |_| limits.uncapped());
    let onsets = estimator.erle_onsets();
    streams(seen, "subonsets", onsets, |_| limits.minimum());
}

/// The streams, and what was learnt of each section.
fn signal(
    estimator: &published_signal::SignalDependentErleEstimator,
    limits: &Limits,
    seen: &mut Seen,
) {
    let (band, subband) = (|band| limits.band(band), |place| limits.subband(place));
    streams(seen, "sigplain", estimator.erle(false), band);
    streams(seen, "sigcomp", estimator.erle(true), band);
    for c in 0..estimator.erle(false).len() {
        let held = published_signal::peek_channel(estimator, c);
        let (estimates, factors) = (held.estimates.as_flattened(), held.factors.as_flattened());
        seen.see("reference", c, held.reference, subband);
        seen.see("estimates", c, estimates, subband);
        seen.see("factors", c, factors, |place| limits.factor(place));
    }
}

/// The figures, the extremes, and the qualities before clamping and as they are
/// answered. `clamped` says that both clamps are on.
fn fullband(estimator: &FullBand, limits: &Limits, clamped: bool, seen: &mut Seen) {
    let log2 = |_| limits.log2();
    let answered = if clamped { 0.0..=1.0 } else { FINITE };
    seen.see("least figure", 0, &[estimator.fullband_erle_log2()], log2);
    let qualities = estimator.get_linear_quality_estimates();
    for (c, quality) in qualities.iter().enumerate() {
        let held = published_fullband::peek_channel(estimator, c);
        seen.see("figure", c, &[held.figure], log2);
        seen.see("greatest", c, &[held.greatest], |_| FINITE);
        seen.see("smallest", c, &[held.least], |_| FINITE);
        seen.see("quality", c, &[held.quality], |_| FINITE);
        seen.see("answered quality", c, quality.as_slice(), |_| {
            answered.clone()
        });
    }
}
