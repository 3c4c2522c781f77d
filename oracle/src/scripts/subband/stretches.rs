//! Random calls, in stretches of one manner each.

use super::{start, Walk};
use crate::audio_processing::aec3::subband_erle_estimator::{peek_channel, SubbandErleEstimator};
use crate::judge::{BANDS, GREATEST_ERLE, GREATEST_VALUE};
use crate::kinds::subband::Start;
use crate::scripts::faults::spoil;
use crate::scripts::flags::Flags;
use crate::scripts::part::refused::FAULTS;
use crate::scripts::part::{call, draw_limits, quiet, refused_start, POINTS};
use crate::scripts::random::Random;
use crate::scripts::spectra::{any_power, beside, power, powers, Power, Spectrum, POWERS, T};
use crate::scripts::Script;

const UPDATES: u32 = 3_200;

/// The longest stretch; with no channel converged, long enough for holds to run
/// out.
const LONGEST: u32 = 90;
const LONGEST_REST: u32 = 300;

pub fn script(seed: u64) -> Script {
    let mut random = Random::new(1_000 + seed);
    let mut start = draw_start(&mut random);
    let mut walk = Walk::started(&start);
    let mut updates = 0;
    while updates < UPDATES {
        let stretch = Stretch::draw(&mut random, start);
        for _ in 0..stretch.calls {
            stretch.step(&mut random, &mut walk);
        }
        updates += stretch.calls;
        match random.below(12) {
            0 => {
                start = draw_start(&mut random);
                walk.start(&start);
            }
            1 => refused_start(&mut random, &mut walk, &start),
            2 => walk.repeat(1 + random.below(700), &quiet(start.channels as usize)),
            3..=4 => walk.reset(),
            _ => (),
        }
    }
    walk.script
}

fn draw_start(random: &mut Random) -> Start {
    let limits = draw_limits(random);
    let channels = 1 + random.below(4) as usize;
    start(limits, random.below(3) != 0, channels)
}

/// How a stretch's renders are made.
#[derive(Clone, Copy)]
enum Renders {
    Powers(Power),
    /// At T or one step above, and now and then one step below.
    Threshold,
}

/// How a stretch's captures and residuals lie to each other.
#[derive(Clone, Copy)]
pub enum Ratio {
    Free,
    /// About the figures of most settings.
    Middle,
    Steep,
    Infinite,
    NoCapture,
    /// But for a few.
    NoResidual,
    /// Ratios at the figures that stand, or that move them to their limits.
    Aimed,
}

const RATIOS: [Ratio; 9] = [
    Ratio::Free,
    Ratio::Middle,
    Ratio::Middle,
    Ratio::Steep,
    Ratio::Infinite,
    Ratio::NoCapture,
    Ratio::NoResidual,
    Ratio::Aimed,
    Ratio::Aimed,
];

struct Stretch {
    calls: u32,
    start: Start,
    render: Renders,
    ratio: Ratio,
    flags: Flags,
    /// A channel that is not converged, whatever the flags say.
    resting: Option<usize>,
}

impl Stretch {
    fn draw(random: &mut Random, start: Start) -> Self {
        let flags = match random.below(12) {
            0 => Flags::None,
            _ => random.one_of(&[Flags::All, Flags::All, Flags::Some, Flags::Any]),
        };
        let longest = match flags {
            Flags::None => LONGEST_REST,
            _ => LONGEST,
        };
        Self {
            calls: 1 + random.below(longest),
            start,
            render: match random.below(4) {
                0 => Renders::Threshold,
                _ => Renders::Powers(random.one_of(&POWERS)),
            },
            ratio: random.one_of(&RATIOS),
            flags,
            resting: match random.below(3) {
                0 if start.channels > 1 => Some(random.below(start.channels) as usize),
                _ => None,
            },
        }
    }

    /// One call, now and then spoilt, and now and then a reset after it.
    fn step(&self, random: &mut Random, walk: &mut Walk) {
        let estimator = walk.estimator.as_ref().expect("an accepted start");
        let mut flags = self.flags.draw(random, self.start.channels as usize);
        if let Some(channel) = self.resting {
            flags[channel] = false;
        }
        let render = self.render(random);
        let (captures, residuals): (Vec<Spectrum>, Vec<Spectrum>) = (0..flags.len())
            .map(|channel| self.channel(random, estimator, channel))
            .unzip();
        let mut call = call(&flags, &render, &captures, &residuals);
        if random.below(64) == 0 {
            spoil(random, &mut call, &FAULTS);
        }
        walk.update(&call);
        if random.below(150) == 0 {
            walk.reset();
        }
    }

    fn render(&self, random: &mut Random) -> Spectrum {
        match self.render {
            Renders::Powers(how) => powers(random, how),
            Renders::Threshold => std::array::from_fn(|_| match random.below(24) {
                0 => T.next_down(),
                _ => random.one_of(&[T, T.next_up()]),
            }),
        }
    }

    /// A channel's capture and residual.
    fn channel(
        &self,
        random: &mut Random,
        estimator: &SubbandErleEstimator,
        channel: usize,
    ) -> (Spectrum, Spectrum) {
        match self.ratio {
            Ratio::Aimed => aimed(random, estimator, channel, &self.start),
            ratio => capture_and_residual(random, ratio),
        }
    }
}

/// A channel's capture and residual, of a manner that does not aim.
pub fn capture_and_residual(random: &mut Random, how: Ratio) -> (Spectrum, Spectrum) {
    let residual: Spectrum = std::array::from_fn(|_| residual(random, how));
    let capture = residual.map(|residual| capture(random, how, residual));
    (capture, residual)
}

fn residual(random: &mut Random, how: Ratio) -> f32 {
    match how {
        Ratio::Free => any_power(random),
        Ratio::Infinite => random.one_of(&[0.0, f32::from_bits(1), f32::from_bits(2)]),
        Ratio::NoResidual if random.below(32) != 0 => random.one_of(&[0.0, -0.0]),
        _ => power(random, Power::Near),
    }
}

/// A capture for a residual.
fn capture(random: &mut Random, how: Ratio, residual: f32) -> f32 {
    let capture = match how {
        Ratio::Free => any_power(random),
        Ratio::Infinite => GREATEST_VALUE,
        Ratio::NoCapture => random.one_of(&[0.0, -0.0]),
        Ratio::Steep => residual * octave_between(random, 8, 20),
        _ => residual * octave_between(random, -3, 6),
    };
    capture.min(GREATEST_VALUE)
}

fn octave_between(random: &mut Random, least: i32, below: i32) -> f32 {
    let exponent = least + random.below((below - least) as u32) as i32;
    random.octave(exponent)
}

/// Nothing but in the sixth block, whose residuals are powers of 2: so the
/// ratios are exact, if the five blocks before it were of this manner too.
fn aimed(
    random: &mut Random,
    estimator: &SubbandErleEstimator,
    channel: usize,
    start: &Start,
) -> (Spectrum, Spectrum) {
    let held = peek_channel(estimator, channel);
    if held.points != POINTS - 1 {
        let zero = random.one_of(&[0.0, -0.0]);
        return ([zero; BANDS], [zero; BANDS]);
    }
    let streams = [
        &estimator.erle(false)[channel],
        held.compensated,
        &estimator.erle_unbounded()[channel],
    ];
    let residual: Spectrum = std::array::from_fn(|_| (1_u64 << random.below(40)) as f32);
    let capture = std::array::from_fn(|band| {
        let figure = random.one_of(&streams)[band];
        residual[band] * target(random, figure, start)
    });
    (capture, residual)
}

/// A ratio at a figure, or that moves it about its minimum or a maximum; or one
/// step beside such a ratio.
fn target(random: &mut Random, figure: f32, start: &Start) -> f32 {
    let limit = random.one_of(&[start.max_l, start.max_h, GREATEST_ERLE]);
    let ratio = match random.below(3) {
        0 => figure,
        1 => figure + (limit - figure) / 0.05,
        _ => figure + (start.min - figure) / 0.1,
    };
    random.one_of(&beside(ratio)).max(0.0)
}
