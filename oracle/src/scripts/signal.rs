//! Scripts of the signal-dependent estimator.

mod averages;
pub mod calls;
mod choices;
mod counts;
mod damaged;
mod echoes;
mod powers;
pub mod refused;
mod rings;
mod roundings;
pub mod sample;
mod starts;
pub mod stretches;
mod targets;
mod thresholds;

use super::part::{for_each_number_of_channels, SETTINGS};
use super::random::Random;
use super::spectra::LOUD;
use super::Maker;
use crate::audio_processing::aec3::signal_dependent_erle_estimator::peek_section_boundaries;
use crate::judge::{BANDS, BLOCK_SAMPLES, GREATEST_ERLE};
use crate::kinds::part::Settings;
use crate::kinds::signal::{Call, Signal, Start};
use crate::kinds::subband;
use calls::{flat, only_block};

pub use damaged::scripts as damaged_scripts;

type Walk = super::walk::Walk<Signal>;

/// The updates of a subband that move no factor.
pub const UPDATES_WITHOUT_FACTOR: usize = 50;

/// Limits that no figure of a lesson reaches.
const WIDE: [f32; 3] = [1.0, GREATEST_ERLE, GREATEST_ERLE];

/// How many scripts of random stretches there are.
const STRETCHES: u64 = 40;

pub fn scripts() -> Vec<Maker> {
    let mut makers: Vec<Maker> = vec![Box::new(starts::script)];
    makers.extend(for_each_number_of_channels(&[
        refused::script,
        counts::script,
        thresholds::script,
        averages::script,
    ]));
    for sections in 2..=8 {
        makers.push(Box::new(move || targets::script(sections)));
    }
    for sections in 2..=8 {
        makers.push(Box::new(move || choices::script(sections)));
    }
    for headrooms in rings::HEADROOMS {
        makers.push(Box::new(move || rings::script(headrooms)));
    }
    for seed in 0..STRETCHES {
        makers.push(Box::new(move || stretches::script(seed)));
    }
    makers
}

/// Sections, filter length in blocks and headroom in samples.
pub type Filter = [u32; 3];

/// A start with these settings.
pub fn start(limits: [f32; 3], onset: bool, channels: usize, filter: Filter) -> Start {
    let [sections, length_blocks, headroom_samples] = filter;
    Start {
        settings: subband::Start::new(limits, onset as u32, channels as u32),
        sections,
        length_blocks,
        headroom_samples,
    }
}

/// The start that shows the active section: the boundaries are 0, 2 and 4.
pub fn example_start() -> Start {
    start(SETTINGS[0], true, 1, [2, 4, 0])
}

impl Start {
    pub fn channels(&self) -> usize {
        self.settings.channels as usize
    }

    pub fn headroom_blocks(&self) -> u32 {
        self.headroom_samples / BLOCK_SAMPLES
    }

    /// The boundaries of the sections.
    fn boundaries(&self) -> Vec<usize> {
        peek_section_boundaries(
            self.headroom_blocks() as usize,
            self.length_blocks as usize,
            self.sections as usize,
        )
    }

    /// The least ring that is accepted.
    pub fn least_ring(&self) -> usize {
        self.headroom_blocks().max(1) as usize
    }

    /// A converged call in which all the echo of all channels is in one section.
    /// Each channel has a ratio of its own.
    pub fn lesson(&self, section: usize, ratio: f32) -> Call {
        let channels = self.channels();
        let block = self.boundaries()[section];
        let mut call = flat(&vec![true; channels], [LOUD, ratio, 1.0], 20.0)
            .on_ones(self.least_ring())
            .answering(&vec![only_block(block); channels]);
        for (place, capture) in call.capture.iter_mut().enumerate() {
            *capture *= 1.0 + 0.5 * (place / BANDS) as f32;
        }
        call
    }
}

/// Updates after which the factors of all sections differ, wherever the limits
/// leave room for it.
fn teach(walk: &mut Walk, start: &Start) {
    let sections = start.sections as usize;
    for turn in 0..UPDATES_WITHOUT_FACTOR + 2 * sections {
        let section = turn % sections;
        walk.update(&start.lesson(section, 2.0 + 4.0 * section as f32));
    }
}

/// Minimum, max_l and max_h that leave room, mostly.
fn draw_limits(random: &mut Random) -> [f32; 3] {
    match random.below(3) {
        0 => super::part::draw_limits(random),
        1 => SETTINGS[0],
        _ => WIDE,
    }
}

/// Any sections, filter length and headroom that are accepted.
pub fn draw_filter(random: &mut Random) -> Filter {
    let sections = match random.below(24) {
        0 => 1,
        _ => 2 + random.below(7),
    };
    let length = sections + random.below(17 - sections);
    let spare = length - sections;
    let blocks = match random.below(2) {
        0 => 0,
        _ => random.below(spare + 1),
    };
    let samples = blocks * BLOCK_SAMPLES + random.below(BLOCK_SAMPLES);
    [sections, length, samples]
}
