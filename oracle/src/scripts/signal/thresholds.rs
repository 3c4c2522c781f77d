//! Renders whose subband sums lie about T, residuals that are missing, and bands
//! that count for a subband or do not.

use super::calls::{flat, only_block, SUBBANDS};
use super::powers::about_the_threshold;
use super::{start, teach, Walk, WIDE};
use crate::judge::{BANDS, GREATEST_VALUE};
use crate::kinds::signal::{Call, Start};
use crate::scripts::random::Random;
use crate::scripts::spectra::{beside, LOUD, SPECIALS, T};
use crate::scripts::Script;

/// How many renders are made with sums about T.
const RENDERS: u32 = 150;

pub fn script(channels: usize) -> Script {
    let mut random = Random::new(180 + channels as u64);
    let start = start(WIDE, channels != 2, channels, [2, 4, 0]);
    let mut walk = Walk::started(&start);
    teach(&mut walk, &start);
    for render in single_bands() {
        walk.update(&with_render(&start, render));
    }
    for _ in 0..RENDERS {
        let mut render = vec![0.0];
        for bounds in SUBBANDS.windows(2) {
            render.extend(about_the_threshold(&mut random, bounds[1] - bounds[0]));
        }
        walk.update(&with_render(&start, render));
    }
    for capture in SPECIALS {
        for residual in SPECIALS {
            walk.update(&special_powers(&start, capture, residual));
        }
    }
    for band in 0..BANDS {
        walk.update(&one_band_before_the_others(&start, band));
    }
    walk.script
}

/// One band at T, one step beside it, or special; the others silent. Ratios from
/// turn to turn differ, so that a move shows.
fn single_bands() -> Vec<Vec<f32>> {
    let mut renders = Vec::new();
    for band in 0..BANDS {
        for level in beside(T).into_iter().chain([1e12, GREATEST_VALUE]) {
            let mut render = vec![[0.0, -0.0][band % 2]; BANDS];
            render[band] = level;
            renders.push(render);
        }
    }
    renders
}

fn with_render(start: &Start, render: Vec<f32>) -> Call {
    let ratio = 2.0 + (render[7].to_bits() % 5) as f32;
    Call {
        render,
        ..start.lesson(1, ratio)
    }
}

/// The same capture and residual in the first or the last band of each subband,
/// and zeros elsewhere.
fn special_powers(start: &Start, capture: f32, residual: f32) -> Call {
    let mut call = start.lesson(0, 0.0);
    call.residual.fill(-0.0);
    for channel in 0..start.channels() {
        for bounds in SUBBANDS.windows(2) {
            call.capture[BANDS * channel + bounds[0]] = capture;
            call.residual[BANDS * channel + bounds[1] - 1] = residual;
        }
    }
    call
}

/// The echo of one band is in the first section and that of the others in the
/// last; the subband learns for the least. Band 0 counts for none, band 64 for
/// the last.
fn one_band_before_the_others(start: &Start, band: usize) -> Call {
    let channels = start.channels();
    let mut blocks = only_block(3);
    blocks[3][band] = 0.0;
    blocks[0][band] = 1.0;
    let flags = vec![true; channels];
    flat(&flags, [LOUD, 9.0, 1.0], 30.0).answering(&vec![blocks; channels])
}
