//! Calls at the thresholds, and every mixture of flags.

use super::{flat, spread, Walk, CHANNELS, LEAST_ERL, STARTUPS};
use crate::judge::BANDS;
use crate::scripts::flags::{converged, mask_flags};
use crate::scripts::random::Random;
use crate::scripts::spectra::{any_power, beside, powers, Power, Spectrum, SPECIALS, T};
use crate::scripts::sums::spectra_about_the_sum;
use crate::scripts::Script;

/// How many spectra are made for one sum.
const SPECTRA_OF_A_SUM: u32 = 12;

/// For each choice of channels, calls at the thresholds of bands and sums.
pub fn edges() -> Script {
    let mut random = Random::new(10);
    let mut walk = Walk::new(0);
    for (captures, renders) in CHANNELS {
        walk.start(0);
        flat_levels(&mut walk, captures, renders);
        single_bands(&mut walk, &mut random, captures, renders);
        walk.start(1);
        for _ in 0..SPECTRA_OF_A_SUM {
            for render in spectra_about_the_sum(&mut random) {
                let capture = about_the_least_ratio(&mut random, &render);
                let flags = converged(&mut random, captures);
                walk.update(&spread(&mut random, &flags, renders, &render, &capture));
            }
        }
        walk.start(0);
        special_values(&mut walk, captures, renders);
    }
    walk.script
}

/// Renders of one value in all bands; all at T move the time domain alone.
fn flat_levels(walk: &mut Walk, captures: usize, renders: usize) {
    for level in beside(T) {
        for other in [0.0, T.next_down(), T, T.next_up()] {
            let render = [level, other];
            let flags = vec![true; captures];
            walk.update(&flat(&flags, &render[..renders], &vec![0.0; captures]));
        }
    }
}

/// One band about T and the others silent, for each band.
fn single_bands(walk: &mut Walk, random: &mut Random, captures: usize, renders: usize) {
    for band in 0..BANDS {
        for level in beside(T) {
            let mut render = [0.0; BANDS];
            render[band] = level;
            let flags = converged(random, captures);
            walk.update(&spread(random, &flags, renders, &render, &[1.0; BANDS]));
        }
    }
}

/// Captures in a ratio to the renders from somewhat below the least ERL up.
fn about_the_least_ratio(random: &mut Random, render: &Spectrum) -> Spectrum {
    render.map(|value| value * LEAST_ERL * (0.5 + 2.0 * random.unit()))
}

/// Every special value against every other, render and capture.
fn special_values(walk: &mut Walk, captures: usize, renders: usize) {
    for (at, render) in SPECIALS.into_iter().enumerate() {
        for capture in SPECIALS.into_iter().chain([T, T.next_up()]) {
            let render = [render, SPECIALS[at / 2]];
            let capture = [capture, SPECIALS[at], 0.0, -0.0];
            let flags = vec![true; captures];
            walk.update(&flat(&flags, &render[..renders], &capture[..captures]));
        }
    }
}

/// For each choice of channels, every mixture of flags with every startup
/// count, a reset on the way.
pub fn mixtures() -> Script {
    let mut random = Random::new(11);
    let mut walk = Walk::new(0);
    for (captures, renders) in CHANNELS {
        for mask in 0..1 << captures {
            for startup in STARTUPS {
                let flags = mask_flags(mask, captures);
                mixture(&mut walk, &mut random, &flags, renders, startup);
            }
        }
    }
    walk.script
}

fn mixture(walk: &mut Walk, random: &mut Random, flags: &[bool], renders: usize, startup: u32) {
    walk.start(startup);
    for turn in 0..50 {
        let render = powers(random, Power::Near);
        let capture = match turn % 3 {
            0 => [0.0; BANDS],
            1 => about_the_least_ratio(random, &render),
            _ => render.map(|_| any_power(random)),
        };
        walk.update(&spread(random, flags, renders, &render, &capture));
        if turn == 45 {
            walk.reset();
        }
    }
}
