//! What the scripts of the whole estimator reach.

use crate::audio_processing::aec3::erle_estimator::peek;
use crate::audio_processing::aec3::{
    fullband_erle_estimator as fullband, signal_dependent_erle_estimator as signal,
    subband_erle_estimator as subband,
};
use crate::judge::{BLOCK_SAMPLES, CAPTURE_CHANNELS};
use crate::kinds::erle::{Call, DelayChanged, Erle};
use crate::kinds::standing::Estimator;
use crate::record::{Body, Fields, Record};
use crate::tests::counts::{count, each, Counts};
use crate::tests::each_record;

/// Counts over all scripts, of accepted updates but for resets and refusals.
#[derive(Debug, Default)]
struct Reached {
    records: usize,
    accepted: usize,
    sections: Counts<u32>,
    lengths: Counts<u32>,
    headroom_blocks: Counts<u32>,
    slots: Counts<u32>,
    renders: Counts<u32>,
    channels: Counts<u32>,
    /// Startup counts, of updates in the startup phase and behind it.
    startups: Counts<(u32, bool)>,
    /// Onset detection and the two clamps.
    switches: Counts<[bool; 3]>,
    refusals: Counts<u32>,
    refused_in_startup: usize,
    refused_starts: Counts<u32>,
    /// Resets, by whether the delay changed: with the points held, and in startup.
    resets: Counts<(bool, usize)>,
    resets_in_startup: Counts<bool>,
    /// Resets while the first channel's hold stands above 150, falls to 0, or is
    /// there.
    resets_in_holds: Counts<(bool, Hold)>,
    /// Updates that a subband has counted, as they are counted.
    updates: Counts<(usize, usize)>,
    factors_moved: usize,
    /// Uncapped figures that are not the plain ones.
    uncapped_apart: usize,
    fewer_responses: usize,
    decays: usize,
    began_to_wait: usize,
    qualities: Counts<bool>,
    qualities_lost: usize,
    /// Updates that are not the first channel's, one after the other.
    resting: usize,
    longest_rest: usize,
    rests_of_500: usize,
}

#[derive(Debug, Clone, Copy, PartialEq, Eq, PartialOrd, Ord)]
enum Hold {
    High,
    Low,
    Zero,
}

/// What the first channel held before a call, or shows after it.
struct Held {
    in_startup: bool,
    points: usize,
    hold: Hold,
    waiting: bool,
    compensated: f32,
    updates: Option<[usize; 6]>,
    factors: Vec<[f32; 6]>,
    fullband_hold: i32,
    quality: bool,
}

impl Held {
    fn of(erle: &Erle) -> Self {
        let held = peek(&erle.estimator);
        let bands = subband::peek_channel(held.subband, 0);
        let sections = held.signal.map(|signal| signal::peek_channel(signal, 0));
        Self {
            in_startup: held.blocks < erle.start.startup as usize,
            points: bands.points,
            hold: match bands.holds[20] {
                151.. => Hold::High,
                1..=150 => Hold::Low,
                _ => Hold::Zero,
            },
            waiting: bands.waiting[20],
            compensated: bands.compensated[20],
            updates: sections.as_ref().map(|held| *held.updates),
            factors: sections.map_or(Vec::new(), |held| held.factors.to_vec()),
            fullband_hold: fullband::peek_channel(held.fullband, 0).hold,
            quality: erle.estimator.get_inst_linear_quality_estimates()[0].is_some(),
        }
    }
}

impl Reached {
    fn step(&mut self, standing: &mut Option<Erle>, record: &Record<'_>) {
        let body = Fields::of(record);
        match record.kind {
            Erle::START => {
                self.resting = 0;
                let started = Erle::started(&Body::read(body).unwrap());
                if let Err(refusal) = &started {
                    count(&mut self.refused_starts, refusal.0);
                }
                *standing = started.ok();
            }
            Erle::UPDATE => self.update(standing, &Call::read(body).unwrap()),
            _ => self.reset(standing, DelayChanged::read(body).unwrap()),
        }
    }

    fn reset(&mut self, standing: &mut Option<Erle>, reset: DelayChanged) {
        self.resting = 0;
        let Some(erle) = standing else { return };
        let before = Held::of(erle);
        match before.in_startup {
            true => count(&mut self.resets_in_startup, reset.0),
            false => {
                count(&mut self.resets, (reset.0, before.points));
                count(&mut self.resets_in_holds, (reset.0, before.hold));
            }
        }
        erle.reset(reset);
    }

    fn update(&mut self, standing: &mut Option<Erle>, call: &Call) {
        self.records += 1;
        let Some(erle) = standing else { return };
        let before = Held::of(erle);
        match erle.repeat(1, call) {
            Err(refusal) => {
                count(&mut self.refusals, refusal.0);
                self.refused_in_startup += before.in_startup as usize;
            }
            Ok(()) => {
                self.accepted += 1;
                self.see_call(erle, call);
                self.see_channel(erle, call, &before, &Held::of(erle));
            }
        }
    }

    fn see_call(&mut self, erle: &Erle, call: &Call) {
        let start = &erle.start;
        let signal = &start.signal;
        count(&mut self.sections, signal.sections);
        count(&mut self.lengths, signal.length_blocks);
        let headroom_blocks = signal.headroom_samples / BLOCK_SAMPLES;
        count(&mut self.headroom_blocks, headroom_blocks);
        count(&mut self.slots, call.slots);
        count(&mut self.renders, call.renders);
        count(&mut self.channels, call.channels);
        let switches = [signal.settings.onset, start.to_zero, start.to_one];
        count(&mut self.switches, switches);
        let blocks = &call.response_blocks;
        let fewer = blocks.iter().any(|&count| count < signal.length_blocks);
        self.fewer_responses += fewer as usize;
        let erle = &erle.estimator;
        self.uncapped_apart += (erle.erle_unbounded() != erle.erle(false)) as usize;
    }

    fn see_channel(&mut self, erle: &Erle, call: &Call, before: &Held, after: &Held) {
        count(&mut self.startups, (erle.start.startup, after.in_startup));
        count(&mut self.qualities, after.quality);
        let lost = before.quality && !after.quality && after.fullband_hold == 0;
        self.qualities_lost += lost as usize;
        let unconverged = !call.flags[0];
        self.decays += (unconverged && after.compensated < before.compensated) as usize;
        self.began_to_wait += (after.waiting && !before.waiting) as usize;
        self.factors_moved += (before.factors != after.factors) as usize;
        if let (Some(before), Some(after)) = (before.updates, after.updates) {
            for subband in (0..6).filter(|&subband| after[subband] > before[subband]) {
                count(&mut self.updates, (subband, after[subband]));
            }
        }
        self.resting = if unconverged { self.resting + 1 } else { 0 };
        self.longest_rest = self.longest_rest.max(self.resting);
        self.rests_of_500 += (self.resting == 500) as usize;
    }

    /// What the settings of the accepted updates were.
    fn all_settings(&self) -> bool {
        let switches = (0..8).map(|bits| [0, 1, 2].map(|place| bits >> place & 1 == 1));
        let startups = [
            (0, false),
            (1, false),
            (2, false),
            (2, true),
            (5, false),
            (5, true),
            (1 << 31, true),
        ];
        each(1..=8, &self.sections, 2_000)
            && each(1..=16, &self.lengths, 200)
            && each(0..=16, &self.headroom_blocks, 20)
            && each(1..=32, &self.slots, 20)
            && each(1..=2, &self.renders, 10_000)
            && each(CAPTURE_CHANNELS, &self.channels, 10_000)
            && each(switches, &self.switches, 2_000)
            && each(startups, &self.startups, 200)
    }

    fn all_resets(&self) -> bool {
        let kinds = [false, true];
        let points = kinds.map(|changed| (0..=6).map(move |points| (changed, points)));
        let holds = [Hold::High, Hold::Low, Hold::Zero];
        let holds = kinds.map(|changed| holds.map(|hold| (changed, hold)));
        each(points.into_iter().flatten(), &self.resets, 20)
            && each(holds.into_iter().flatten(), &self.resets_in_holds, 10)
            && each(kinds, &self.resets_in_startup, 20)
    }

    fn all_steps(&self) -> bool {
        let updates = (0..6).flat_map(|subband| [1, 49, 50, 51, 52, 60].map(|n| (subband, n)));
        each([21, 2, 4, 9, 5, 6], &self.refusals, 100)
            && self.refused_in_startup >= 50
            && each(1..=3, &self.refused_starts, 40)
            && each(updates, &self.updates, 100)
            && self.factors_moved >= 10_000
            && self.uncapped_apart >= 20_000
            && self.fewer_responses >= 10_000
            && self.decays >= 2_000
            && self.began_to_wait >= 50
            && each([false, true], &self.qualities, 20_000)
            && self.qualities_lost >= 100
            && self.longest_rest >= 600
            && self.rests_of_500 >= 10
    }
}

#[test]
fn the_scripts_reach_what_they_are_for() {
    let mut reached = Reached::default();
    let mut standing = None;
    each_record("erle", |first, record| {
        if first {
            standing = None;
        }
        reached.step(&mut standing, record);
    });
    let all = reached.accepted >= 200_000
        && reached.all_settings()
        && reached.all_resets()
        && reached.all_steps();
    assert!(all, "{reached:?}");
}
