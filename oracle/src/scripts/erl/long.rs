//! Runs long enough for holds to run out and for the ERL to double up to its
//! greatest value.

use super::{spread, Walk, CHANNELS, LEAST_ERL, STARTUPS};
use crate::judge::{BANDS, GREATEST_VALUE};
use crate::scripts::flags::converged;
use crate::scripts::random::Random;
use crate::scripts::spectra::{any_power, power, powers, Power, Spectrum, LOUD};
use crate::scripts::Script;

/// A run with the channels of this place in `CHANNELS`.
pub fn script(place: usize) -> Script {
    let (captures, renders) = CHANNELS[place];
    let mut run = Run {
        walk: Walk::new(STARTUPS[place % 5]),
        random: Random::new(20 + place as u64),
        captures,
        renders,
    };
    run.loud(60, 0.0);
    run.unconverged(30);
    run.loud(150, 0.0);
    run.quiet(1_100);
    run.quiet(1_200);
    run.band_by_band();
    run.interrupted(1_300);
    run.falling(40);
    run.quiet(1_050);
    for ratio in [LEAST_ERL, LEAST_ERL.next_down(), LEAST_ERL.next_up()] {
        run.loud(200, 0.0);
        run.walk.reset();
        run.exact(1_050, ratio);
    }
    run.walk.start(0);
    run.loud(1, 1.0);
    run.walk.reset();
    run.loud(1_020, f32::MAX);
    run.walk.script
}

struct Run {
    walk: Walk,
    random: Random,
    captures: usize,
    renders: usize,
}

impl Run {
    /// A call with a converged channel and these per-band greatest values.
    fn block(&mut self, render: &Spectrum, capture: &Spectrum) {
        let flags = converged(&mut self.random, self.captures);
        let call = spread(&mut self.random, &flags, self.renders, render, capture);
        self.walk.update(&call);
    }

    /// Blocks with all bands in one ratio, or in the greatest that is accepted.
    fn loud(&mut self, blocks: u32, ratio: f32) {
        let capture = (ratio * LOUD).min(GREATEST_VALUE);
        for _ in 0..blocks {
            self.block(&[LOUD; BANDS], &[capture; BANDS]);
        }
    }

    /// Blocks with an exact ratio, by turns in some bands, too few for the sum,
    /// and in the sum alone.
    fn exact(&mut self, blocks: u32, ratio: f32) {
        for block in 0..blocks {
            let (bands, power) = match block % 2 {
                0 => (1..41, LOUD),
                _ => (0..1, 64.0 * LOUD),
            };
            let (mut render, mut capture) = ([0.0; BANDS], [0.0; BANDS]);
            render[bands.clone()].fill(power);
            capture[bands].fill(ratio * power);
            self.block(&render, &capture);
        }
    }

    /// Blocks in which no figure moves, but holds fall.
    fn quiet(&mut self, blocks: u32) {
        for _ in 0..blocks {
            let random = &mut self.random;
            let render = std::array::from_fn(|_| power(random, Power::Quiet));
            let capture = std::array::from_fn(|_| any_power(random));
            self.block(&render, &capture);
        }
    }

    /// Blocks in which not even holds fall.
    fn unconverged(&mut self, blocks: u32) {
        for _ in 0..blocks {
            let flags = vec![false; self.captures];
            let render = powers(&mut self.random, Power::Loud);
            let silent = [0.0; BANDS];
            let call = spread(&mut self.random, &flags, self.renders, &render, &silent);
            self.walk.update(&call);
        }
    }

    /// One band after the other is set, so that the holds run out one after
    /// the other.
    fn band_by_band(&mut self) {
        for band in 0..BANDS {
            let mut render = [0.0; BANDS];
            render[band] = LOUD;
            self.block(&render, &[LOUD / 4.0; BANDS]);
        }
    }

    /// Quiet blocks with resets and unconverged blocks among them.
    fn interrupted(&mut self, blocks: u32) {
        for block in 0..blocks {
            self.quiet(1);
            if block % 13 == 0 {
                self.unconverged(1);
            }
            if block % 97 == 0 {
                self.walk.reset();
            }
        }
    }

    /// Each band falls in a ratio of its own, which is not round.
    fn falling(&mut self, blocks: u32) {
        let random = &mut self.random;
        let ratios: Spectrum = std::array::from_fn(|band| random.octave(band as i32 % 15 - 7));
        for _ in 0..blocks {
            let render: Spectrum = std::array::from_fn(|_| LOUD * (1.0 + self.random.unit()));
            let capture = std::array::from_fn(|band| render[band] * ratios[band]);
            self.block(&render, &capture);
        }
    }
}
