//! What the scripts of the signal-dependent estimator reach.

use crate::audio_processing::aec3::signal_dependent_erle_estimator::{peek_channel, PeekedChannel};
use crate::judge::{BANDS, CAPTURE_CHANNELS};
use crate::kinds::signal::{Call, Signal};
use crate::kinds::standing::Estimator;
use crate::record::{Body, Fields, Record};
use crate::scripts::spectra::beside;
use crate::tests::counts::{count, each, Counts};
use crate::tests::each_record;

/// Counts over all scripts: of accepted updates, but for resets and refusals.
#[derive(Debug, Default)]
struct Reached {
    records: usize,
    sections: Counts<u32>,
    lengths: Counts<u32>,
    headroom_blocks: Counts<u32>,
    slots: Counts<u32>,
    renders: Counts<u32>,
    channels: Counts<u32>,
    onsets: Counts<bool>,
    refusals: Counts<u32>,
    refused_starts: Counts<u32>,
    /// Updates that a subband has counted, as they are counted.
    counts: Counts<(usize, usize)>,
    /// Resets, by the updates that the first subband has counted.
    resets: Counts<usize>,
    /// Bands, by their active section.
    active: Counts<usize>,
    /// Bands of which a section's sum is one step below 0.9 of a total, that, or
    /// one step above.
    about_the_target: [usize; 3],
    infinite: usize,
    silent: usize,
    fewer_responses: usize,
    no_responses: usize,
    responses_apart: usize,
    /// Averages below the minimum, and above both maxima.
    averages_outside: [usize; 2],
    factors_moved: usize,
}

impl Reached {
    fn see_call(&mut self, signal: &Signal, call: &Call) {
        let start = &signal.start;
        count(&mut self.sections, start.sections);
        count(&mut self.lengths, start.length_blocks);
        count(&mut self.headroom_blocks, start.headroom_blocks());
        count(&mut self.slots, call.slots);
        count(&mut self.renders, call.renders);
        count(&mut self.channels, call.channels);
        count(&mut self.onsets, start.settings.onset);
        let blocks = &call.response_blocks;
        let fewer = blocks.iter().any(|&count| count < start.length_blocks);
        self.fewer_responses += fewer as usize;
        self.no_responses += blocks.contains(&0) as usize;
        self.responses_apart += blocks.iter().any(|count| count != &blocks[0]) as usize;
        let settings = &start.settings;
        let greatest = settings.max_l.max(settings.max_h);
        let averages = || call.averages.iter().flatten();
        self.averages_outside[0] += averages().filter(|&&a| a < settings.min).count();
        self.averages_outside[1] += averages().filter(|&&a| a > greatest).count();
    }

    fn see_channel(&mut self, before: &Held, after: PeekedChannel<'_>) {
        for (subband, &updates) in after.updates.iter().enumerate() {
            if updates > before.updates[subband] {
                count(&mut self.counts, (subband, updates));
            }
        }
        self.factors_moved += (before.factors != after.factors) as usize;
        for band in 0..BANDS {
            self.see_band(&after, band);
        }
    }

    fn see_band(&mut self, held: &PeekedChannel<'_>, band: usize) {
        let active = held.active[band];
        count(&mut self.active, active);
        let sums = || held.echo_sums.iter().map(|sums| sums[band]);
        let total = sums().next_back().expect("two sections");
        self.infinite += total.is_infinite() as usize;
        self.silent += (total == 0.0) as usize;
        let target = 0.9 * total;
        if total > 0.0 && total.is_finite() {
            for (place, value) in beside(target).into_iter().enumerate() {
                self.about_the_target[place] += sums().any(|sum| sum == value) as usize;
            }
        }
        // No section is reached that lies before one that is not.
        assert!(sums().take(active).all(|sum| sum < target));
        assert!(sums().skip(active).all(|sum| sum >= target));
    }
}

/// What a channel held before a call.
struct Held {
    updates: [usize; 6],
    factors: Vec<[f32; 6]>,
}

impl Held {
    fn of(signal: &Signal, channel: usize) -> Self {
        let held = peek_channel(&signal.estimator, channel);
        Self {
            updates: *held.updates,
            factors: held.factors.to_vec(),
        }
    }
}

impl Reached {
    fn step(&mut self, standing: &mut Option<Signal>, record: &Record<'_>) {
        let body = Fields::of(record);
        match record.kind {
            Signal::START => {
                let started = Signal::started(&Body::read(body).unwrap());
                if let Err(refusal) = &started {
                    count(&mut self.refused_starts, refusal.0);
                }
                *standing = started.ok();
            }
            Signal::UPDATE => self.update(standing, &Call::read(body).unwrap()),
            _ => {
                if let Some(signal) = standing {
                    count(&mut self.resets, Held::of(signal, 0).updates[0]);
                    signal.reset(());
                }
            }
        }
    }

    fn update(&mut self, standing: &mut Option<Signal>, call: &Call) {
        self.records += 1;
        let Some(signal) = standing else { return };
        let channels = 0..signal.start.channels();
        let before: Vec<Held> = channels.map(|c| Held::of(signal, c)).collect();
        match signal.repeat(1, call) {
            Err(refusal) => count(&mut self.refusals, refusal.0),
            Ok(()) => {
                self.see_call(signal, call);
                if signal.start.sections >= 2 {
                    for (channel, before) in before.iter().enumerate() {
                        self.see_channel(before, peek_channel(&signal.estimator, channel));
                    }
                }
            }
        }
    }
}

#[test]
fn the_scripts_reach_what_they_are_for() {
    let mut reached = Reached::default();
    let mut standing = None;
    each_record("signal", |first, record| {
        if first {
            standing = None;
        }
        reached.step(&mut standing, record);
    });
    let updates = (0..6).flat_map(|subband| [1, 49, 50, 51, 52, 60].map(|n| (subband, n)));
    let all = reached.records >= 100_000
        && each(1..=8, &reached.sections, 400)
        && each(1..=16, &reached.lengths, 20)
        && each(0..=16, &reached.headroom_blocks, 20)
        && each(1..=32, &reached.slots, 100)
        && each(1..=2, &reached.renders, 10_000)
        && each(CAPTURE_CHANNELS, &reached.channels, 5_000)
        && each([false, true], &reached.onsets, 10_000)
        && each([21, 2, 4, 9, 5, 6], &reached.refusals, 500)
        && each(1..=3, &reached.refused_starts, 50)
        && each(updates, &reached.counts, 100)
        && each([0, 1, 25, 48, 49, 50, 51, 52], &reached.resets, 4)
        && each(0..8, &reached.active, 10_000)
        && reached
            .about_the_target
            .iter()
            .all(|&bands| bands >= 20_000)
        && reached.infinite >= 100_000
        && reached.silent >= 100_000
        && reached.fewer_responses >= 10_000
        && reached.no_responses >= 1_000
        && reached.responses_apart >= 1_000
        && reached
            .averages_outside
            .iter()
            .all(|&bands| bands >= 100_000)
        && reached.factors_moved >= 10_000;
    assert!(all, "{reached:?}");
}
