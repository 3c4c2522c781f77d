//! Random calls, in stretches of one manner each.

use super::refused::FAULTS;
use super::{spread, Walk, CHANNELS, LEAST_ERL, STARTUPS};
use crate::judge::{BANDS, GREATEST_VALUE};
use crate::scripts::faults::spoil;
use crate::scripts::flags::Flags;
use crate::scripts::random::Random;
use crate::scripts::spectra::{any_power, beside, powers, Power, Spectrum, POWERS};
use crate::scripts::sums::spectra_about_the_sum;
use crate::scripts::Script;

const UPDATES: u32 = 18_000;

/// The longest stretch; with quiet ones, long enough for holds to run out.
const LONGEST: u32 = 300;
const LONGEST_QUIET: u32 = 2_000;

pub fn script(seed: u64) -> Script {
    let mut random = Random::new(seed);
    let mut walk = Walk::new(0);
    let mut updates = 0;
    while updates < UPDATES {
        let stretch = Stretch::draw(&mut random);
        for _ in 0..stretch.calls {
            stretch.step(&mut random, &mut walk);
        }
        updates += stretch.calls;
        match random.below(12) {
            0 => walk.start(random.one_of(&STARTUPS[..5])),
            1..=3 => walk.reset(),
            _ => (),
        }
    }
    walk.script
}

/// How a stretch's renders are made.
#[derive(Clone, Copy)]
enum Renders {
    Powers(Power),
    AboutTheSum,
    /// Render and capture whose ratios are the figures that stand, or one step
    /// beside them, in the bands or in the time domain.
    AimedAtBands,
    AimedAtTimeDomain,
}

/// How a stretch's captures lie to its renders.
#[derive(Clone, Copy)]
enum Ratio {
    Silent,
    AboutTheLeast,
    Middle,
    Above,
    Free,
}

const RATIOS: [Ratio; 5] = [
    Ratio::Silent,
    Ratio::AboutTheLeast,
    Ratio::Middle,
    Ratio::Above,
    Ratio::Free,
];

struct Stretch {
    calls: u32,
    captures: usize,
    renders: usize,
    render: Renders,
    ratio: Ratio,
    flags: Flags,
}

impl Stretch {
    fn draw(random: &mut Random) -> Self {
        let render = match random.below(10) {
            0 => Renders::AboutTheSum,
            1 => Renders::AimedAtBands,
            2 => Renders::AimedAtTimeDomain,
            _ => Renders::Powers(random.one_of(&POWERS)),
        };
        let longest = match render {
            Renders::Powers(Power::Quiet) => LONGEST_QUIET,
            _ => LONGEST,
        };
        let (captures, renders) = random.one_of(&CHANNELS);
        let flags = [Flags::All, Flags::Some, Flags::Some, Flags::Any];
        Self {
            calls: 1 + random.below(longest),
            captures,
            renders,
            render,
            ratio: random.one_of(&RATIOS),
            flags: match random.below(20) {
                0 => Flags::None,
                _ => random.one_of(&flags),
            },
        }
    }

    /// One call, now and then spoilt, and now and then a reset after it.
    fn step(&self, random: &mut Random, walk: &mut Walk) {
        let flags = self.flags.draw(random, self.captures);
        let (render, capture) = self.spectra(random, walk);
        let mut call = spread(random, &flags, self.renders, &render, &capture);
        if random.below(64) == 0 {
            spoil(random, &mut call, &FAULTS);
        }
        walk.update(&call);
        if random.below(300) == 0 {
            walk.reset();
        }
    }

    fn spectra(&self, random: &mut Random, walk: &Walk) -> (Spectrum, Spectrum) {
        let render = match self.render {
            Renders::Powers(how) => powers(random, how),
            Renders::AboutTheSum => {
                let spectra = spectra_about_the_sum(random);
                random.one_of(&spectra)
            }
            Renders::AimedAtBands => return aimed_at_bands(random, walk.estimator.erl()),
            Renders::AimedAtTimeDomain => {
                return aimed_at_time_domain(random, walk.estimator.erl_time_domain())
            }
        };
        let capture = render.map(|value| ratio(random, self.ratio, value));
        (render, capture)
    }
}

/// A capture for a render.
fn ratio(random: &mut Random, how: Ratio, render: f32) -> f32 {
    let capture = match how {
        Ratio::Silent => random.one_of(&[0.0, -0.0]),
        Ratio::AboutTheLeast => render * LEAST_ERL * (0.25 + 1.5 * random.unit()),
        Ratio::Middle => {
            let exponent = random.below(18) as i32 - 8;
            render * random.octave(exponent)
        }
        Ratio::Above => render * random.octave(10),
        Ratio::Free => any_power(random),
    };
    capture.min(GREATEST_VALUE)
}

/// Renders that are powers of 2, so that the ratios are exact.
fn aimed_at_bands(random: &mut Random, erl: &Spectrum) -> (Spectrum, Spectrum) {
    let render: Spectrum = std::array::from_fn(|_| (1_u64 << (26 + random.below(8))) as f32);
    let capture = std::array::from_fn(|band| render[band] * about(random, erl[band]));
    (render, capture)
}

/// All power in one band, so that the sums are exact.
fn aimed_at_time_domain(random: &mut Random, erl: f32) -> (Spectrum, Spectrum) {
    let band = random.below(BANDS as u32) as usize;
    let (mut render, mut capture) = ([0.0; BANDS], [0.0; BANDS]);
    render[band] = (1_u64 << 32) as f32;
    capture[band] = render[band] * about(random, erl);
    (render, capture)
}

fn about(random: &mut Random, figure: f32) -> f32 {
    random.one_of(&beside(figure))
}
