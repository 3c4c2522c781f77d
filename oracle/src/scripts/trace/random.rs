//! Random traces: blocks in stretches of one manner each, with resets among them.
//! Half of the traces are then made bad.

use super::draft::Draft;
use super::faults::{Groups, OF_BLOCKS, OF_RESETS, OF_SETTINGS};
use super::{settled, Script, Settings, STARTUPS};
use crate::judge::BANDS;
use crate::kinds::call::Call;
use crate::kinds::erle::DelayChanged;
use crate::scripts::flags::Flags;
use crate::scripts::part::{call, draw_limits};
use crate::scripts::random::Random;
use crate::scripts::spectra::{powers, Power, Spectrum, POWERS};
use crate::scripts::subband::stretches::{capture_and_residual, Ratio};

/// Those that do not aim at figures.
const RATIOS: [Ratio; 6] = [
    Ratio::Free,
    Ratio::Middle,
    Ratio::Steep,
    Ratio::Infinite,
    Ratio::NoCapture,
    Ratio::NoResidual,
];

pub fn trace(seed: u64) -> Script {
    let mut random = Random::new(7_000 + seed);
    let settings = draw_settings(&mut random);
    let mut script = settled(&settings);
    for _ in 0..random.below(5) {
        add_stretch(&mut random, &mut script, &settings);
    }
    match random.below(8) {
        0..=3 => script,
        4 => cut(&mut random, &script),
        5 => changed(&mut random, &script),
        _ => spoilt(&mut random, script, &settings),
    }
}

fn draw_settings(random: &mut Random) -> Settings {
    Settings {
        limits: draw_limits(random),
        channels: 1 + random.below(4) as u8,
        onset: random.below(3) != 0,
        startup: match random.below(24) {
            0 => random.one_of(&[30, 1 << 31, u32::MAX]),
            _ => random.one_of(&STARTUPS),
        },
        band: random.below(BANDS as u32) as u8,
    }
}

/// A stretch, mostly a short one, and now and then a reset.
fn add_stretch(random: &mut Random, script: &mut Script, settings: &Settings) {
    let manner = Manner::draw(random);
    let longest = match (manner.flags, random.below(8)) {
        (Flags::None, 0) => 300,
        (_, 1) => 60,
        _ => 12,
    };
    let blocks = random.below(longest);
    manner.add(random, script, settings.channels.into(), blocks);
    if random.below(3) == 0 {
        script.delay(draw_reset(random));
    }
}

fn draw_reset(random: &mut Random) -> DelayChanged {
    DelayChanged(random.below(2) == 0)
}

/// How the blocks of a stretch are made.
#[derive(Clone, Copy)]
pub struct Manner {
    pub render: Power,
    pub ratio: Ratio,
    pub flags: Flags,
}

impl Manner {
    fn draw(random: &mut Random) -> Self {
        Self {
            render: random.one_of(&POWERS),
            ratio: random.one_of(&RATIOS),
            flags: random.one_of(&[
                Flags::All,
                Flags::All,
                Flags::All,
                Flags::Some,
                Flags::Any,
                Flags::None,
            ]),
        }
    }

    fn block(&self, random: &mut Random, channels: usize) -> Call {
        let flags = self.flags.draw(random, channels);
        let render = powers(random, self.render);
        let (captures, residuals): (Vec<Spectrum>, Vec<Spectrum>) = (0..channels)
            .map(|_| capture_and_residual(random, self.ratio))
            .unzip();
        call(&flags, &render, &captures, &residuals)
    }

    /// Adds so many blocks.
    pub fn add(&self, random: &mut Random, script: &mut Script, channels: usize, blocks: u32) {
        (0..blocks).for_each(|_| script.block(&self.block(random, channels)));
    }
}

/// A place anywhere in a trace, or near its front.
fn place(random: &mut Random, script: &Script) -> usize {
    let size = script.bytes.len() as u32;
    let within = random.one_of(&[size, size, 64.min(size)]);
    random.below(within) as usize
}

fn cut(random: &mut Random, script: &Script) -> Script {
    script.cut(place(random, script))
}

/// One byte is changed to any other.
fn changed(random: &mut Random, script: &Script) -> Script {
    let at = place(random, script);
    script.changed(at, random)
}

/// A record with faults behind the others; settings are the first instead.
fn spoilt(random: &mut Random, before: Script, settings: &Settings) -> Script {
    let channels = settings.channels.into();
    let (mut draft, groups) = match random.below(3) {
        0 => (Draft::settings(settings), OF_SETTINGS),
        1 => {
            let reset = draw_reset(random);
            (Draft::reset(before, channels, reset), OF_RESETS)
        }
        _ => {
            let block = Manner::draw(random).block(random, channels);
            (Draft::block(before, &block), OF_BLOCKS)
        }
    };
    spoil(random, &mut draft, groups);
    draft.trace()
}

/// Gives a record faults of some of the groups, mostly of one or two.
fn spoil(random: &mut Random, draft: &mut Draft, groups: Groups) {
    for group in groups {
        if random.below(4) == 0 {
            random.one_of(group)(draft);
        }
    }
}
