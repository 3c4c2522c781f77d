//! Renders whose sums lie about the threshold.

use super::{start, Walk};
use crate::judge::BANDS;
use crate::kinds::call::Call;
use crate::scripts::flags::converged;
use crate::scripts::part::{call, SETTINGS};
use crate::scripts::random::Random;
use crate::scripts::spectra::{beside, power, Power, Spectrum, LOUD, SPECIALS, T};
use crate::scripts::sums::{spectra_about_the_sum, SUM_T};
use crate::scripts::Script;

/// How many spectra are made for one sum.
const SPECTRA_OF_A_SUM: u32 = 24;

pub fn script(channels: usize) -> Script {
    let mut random = Random::new(70 + channels as u64);
    let mut walk = Walk::started(&start(SETTINGS[0], 0b11, channels));
    for render in flat_renders().into_iter().chain(single_bands()) {
        walk.update(&learning(&mut random, channels, &render));
    }
    walk.reset();
    for _ in 0..SPECTRA_OF_A_SUM {
        for mut render in spectra_about_the_sum(&mut random) {
            walk.update(&learning(&mut random, channels, &render));
            // Another order of the bands, another rounded sum.
            render.reverse();
            walk.update(&learning(&mut random, channels, &render));
            render.sort_by(f32::total_cmp);
            walk.update(&learning(&mut random, channels, &render));
        }
    }
    walk.script
}

/// One value in all bands: about T, whose rounded sum is above the threshold,
/// about the threshold's part of a band, and special values.
fn flat_renders() -> Vec<Spectrum> {
    let part = SUM_T / BANDS as f32;
    let levels = beside(T).into_iter().chain(beside(part));
    let levels = levels.chain(SPECIALS).chain([T / 65.0, LOUD / 2.0, LOUD]);
    levels.map(|level| [level; BANDS]).collect()
}

/// One band at the threshold, one step beside it, or above T alone; the others
/// silent.
fn single_bands() -> Vec<Spectrum> {
    let mut renders = Vec::new();
    for band in 0..BANDS {
        for level in beside(SUM_T).into_iter().chain([T.next_up(), LOUD]) {
            let mut render = [[0.0, -0.0][band % 2]; BANDS];
            render[band] = level;
            renders.push(render);
        }
    }
    renders
}

/// A block with this render in which some channels are converged.
fn learning(random: &mut Random, channels: usize, render: &Spectrum) -> Call {
    let mut spectra = |how: Power| -> Vec<Spectrum> {
        let spectrum = |_| std::array::from_fn(|_| power(random, how));
        (0..channels).map(spectrum).collect()
    };
    let (captures, residuals) = (spectra(Power::Loud), spectra(Power::Near));
    let flags = converged(random, channels);
    call(&flags, render, &captures, &residuals)
}
