//! Random calls, in stretches of one manner each.

use super::{exact, ratio_of, start, Walk, HOLD};
use crate::audio_processing::aec3::fullband_erle_estimator::peek_channel;
use crate::judge::{BANDS, GREATEST_VALUE};
use crate::kinds::call::Call;
use crate::kinds::fullband::Start;
use crate::scripts::faults::spoil;
use crate::scripts::flags::Flags;
use crate::scripts::part::refused::FAULTS;
use crate::scripts::part::{call, draw_limits, quiet, refused_start};
use crate::scripts::random::Random;
use crate::scripts::spectra::{any_power, power, powers, Power, Spectrum, POWERS, T};
use crate::scripts::sums::spectra_about_the_sum;
use crate::scripts::Script;

const UPDATES: u32 = 3_200;

/// The longest stretch; with no channel converged, long enough for holds to run
/// out.
const LONGEST: u32 = 120;
const LONGEST_REST: u32 = 300;

pub fn script(seed: u64) -> Script {
    let mut random = Random::new(2_000 + seed);
    let mut start = draw_start(&mut random);
    let mut walk = Walk::started(&start);
    let mut updates = 0;
    while updates < UPDATES {
        let stretch = Stretch::draw(&mut random, &start);
        for _ in 0..stretch.calls {
            stretch.step(&mut random, &mut walk);
        }
        updates += stretch.calls;
        match random.below(16) {
            0 => {
                start = draw_start(&mut random);
                walk.start(&start);
            }
            1 => refused_start(&mut random, &mut walk, &start),
            2..=3 => walk.repeat(1 + random.below(2 * HOLD), &quiet(start.channels as usize)),
            4 => walk.reset(),
            _ => (),
        }
    }
    walk.script
}

fn draw_start(random: &mut Random) -> Start {
    let limits = draw_limits(random);
    let channels = 1 + random.below(4) as usize;
    start(limits, random.below(4), channels)
}

/// How a stretch's renders are made.
#[derive(Clone, Copy)]
enum Renders {
    Powers(Power),
    /// With a sum about the threshold.
    Threshold,
    /// T in all bands.
    AllAtT,
}

/// How a stretch's captures and residuals lie to each other.
#[derive(Clone, Copy)]
enum Ratio {
    Free,
    /// From below most minima to far above.
    Middle,
    Steep,
    Infinite,
    NoCapture,
    /// But for a few bands.
    NoResidual,
    /// About the extremes that stand.
    Aimed,
}

const RATIOS: [Ratio; 9] = [
    Ratio::Free,
    Ratio::Middle,
    Ratio::Middle,
    Ratio::Steep,
    Ratio::Infinite,
    Ratio::NoCapture,
    Ratio::NoResidual,
    Ratio::Aimed,
    Ratio::Aimed,
];

struct Stretch {
    calls: u32,
    channels: usize,
    render: Renders,
    ratio: Ratio,
    flags: Flags,
    /// A channel that is not converged, whatever the flags say.
    resting: Option<usize>,
}

impl Stretch {
    fn draw(random: &mut Random, start: &Start) -> Self {
        let flags = match random.below(12) {
            0 => Flags::None,
            _ => random.one_of(&[Flags::All, Flags::All, Flags::Some, Flags::Any]),
        };
        let longest = match flags {
            Flags::None => LONGEST_REST,
            _ => LONGEST,
        };
        Self {
            calls: 1 + random.below(longest),
            channels: start.channels as usize,
            render: match random.below(8) {
                0..=3 => Renders::Powers(Power::Loud),
                4 => Renders::Powers(random.one_of(&POWERS)),
                5 => Renders::AllAtT,
                _ => Renders::Threshold,
            },
            ratio: random.one_of(&RATIOS),
            flags,
            resting: match random.below(3) {
                0 if start.channels > 1 => Some(random.below(start.channels) as usize),
                _ => None,
            },
        }
    }

    /// One call, now and then spoilt, and now and then a reset after it.
    fn step(&self, random: &mut Random, walk: &mut Walk) {
        let mut flags = self.flags.draw(random, self.channels);
        if let Some(channel) = self.resting {
            flags[channel] = false;
        }
        let mut call = match self.ratio {
            Ratio::Aimed => aimed(random, walk, &flags),
            ratio => of_ratio(random, &flags, ratio),
        };
        call.render = self.render(random).to_vec();
        if random.below(64) == 0 {
            spoil(random, &mut call, &FAULTS);
        }
        walk.update(&call);
        if random.below(250) == 0 {
            walk.reset();
        }
    }

    fn render(&self, random: &mut Random) -> Spectrum {
        match self.render {
            Renders::Powers(how) => powers(random, how),
            Renders::AllAtT => [T; BANDS],
            Renders::Threshold => {
                let spectra = spectra_about_the_sum(random);
                random.one_of(&spectra)
            }
        }
    }
}

/// A block whose channels have captures and residuals of one manner.
fn of_ratio(random: &mut Random, flags: &[bool], how: Ratio) -> Call {
    let mut captures: Vec<Spectrum> = Vec::new();
    let mut residuals: Vec<Spectrum> = Vec::new();
    for _ in flags {
        let residual: Spectrum = std::array::from_fn(|_| residual(random, how));
        captures.push(residual.map(|residual| capture(random, how, residual)));
        residuals.push(residual);
    }
    call(flags, &[0.0; BANDS], &captures, &residuals)
}

fn residual(random: &mut Random, how: Ratio) -> f32 {
    match how {
        Ratio::Free => any_power(random),
        Ratio::Infinite => random.one_of(&[0.0, f32::from_bits(1), f32::from_bits(2)]),
        Ratio::NoResidual if random.below(512) != 0 => random.one_of(&[0.0, -0.0]),
        _ => power(random, Power::Near),
    }
}

/// A capture for a residual.
fn capture(random: &mut Random, how: Ratio, residual: f32) -> f32 {
    let mut octaves = |least: i32, below: u32| {
        let exponent = least + random.below(below) as i32;
        residual * random.octave(exponent)
    };
    let capture = match how {
        Ratio::Free => any_power(random),
        Ratio::Infinite => GREATEST_VALUE,
        Ratio::NoCapture => random.one_of(&[0.0, -0.0]),
        Ratio::Steep => octaves(8, 40),
        _ => octaves(-3, 9),
    };
    capture.min(GREATEST_VALUE)
}

/// A block whose ratios, alone, would give values about the extremes.
fn aimed(random: &mut Random, walk: &Walk, flags: &[bool]) -> Call {
    let estimator = walk.estimator.as_ref().expect("an accepted start");
    let ratio = |channel: usize| {
        let held = peek_channel(estimator, channel);
        let span = held.greatest - held.least;
        let value = match random.below(4) {
            0 => held.greatest,
            1 => held.least,
            2 => held.least + span * random.unit(),
            _ => 6.0 * random.unit(),
        };
        ratio_of((value + 0.001 * (random.unit() - 0.5)).clamp(-9.9, 120.0))
    };
    let ratios: Vec<f32> = (0..flags.len()).map(ratio).collect();
    Call {
        flags: flags.to_vec(),
        ..exact(&ratios)
    }
}
