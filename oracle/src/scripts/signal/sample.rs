//! The signal-dependent part of the stored sample: two sections learnt apart,
//! readings of the source that show in what was learnt, limits, refusals and a
//! few random calls.

use super::calls::{blocks_with, flat, only_block, SUBBANDS};
use super::refused::{with_count, FAULTS, FILTER};
use super::starts::calls_without_a_start;
use super::stretches::{Manner, LOUD_MANNER};
use super::targets::aimed_at_the_target;
use super::{start, Walk};
use crate::judge::{BANDS, CAPTURE_CHANNELS, GREATEST_ERLE, GREATEST_VALUE};
use crate::kinds::signal::{Call, Start, COMPENSATED, PLAIN};
use crate::scripts::faults::singles;
use crate::scripts::flags::Flags;
use crate::scripts::part::SETTINGS;
use crate::scripts::random::Random;
use crate::scripts::spectra::{beside, Spectrum, LOUD, SPECIALS, T};
use crate::scripts::Script;

/// Adds the calls to what stands in a script.
pub fn add(script: Script) -> Script {
    let mut random = Random::new(18);
    let mut walk = Walk::behind(script);
    calls_without_a_start(&mut walk);
    learn(&mut walk);
    active_sections(&mut walk, &mut random);
    averages(&mut walk);
    moves(&mut walk);
    limits(&mut walk);
    faults(&mut walk);
    for channels in CAPTURE_CHANNELS {
        random_calls(&mut walk, &mut random, channels as usize);
    }
    walk.script
}

/// A start of two sections, whose boundaries are 0, 2 and 4.
fn learner() -> Start {
    start([1.0, 4.0, 4.0], true, 1, [2, 4, 0])
}

/// A converged call with a ratio of 4 and averages of 2, and such a response.
fn answered(response: Vec<Spectrum>) -> Call {
    flat(&[true], [LOUD, 4.0, 1.0], 2.0).answering(&[response])
}

/// 40 updates for the first section and 20 for the second; factors move from the
/// 51st on.
fn learn(walk: &mut Walk) {
    walk.start(&learner());
    walk.each(40, &answered(only_block(0)));
    walk.each(20, &answered(only_block(3)));
}

/// What makes a section active. No channel is converged, so what was learnt stays.
fn active_sections(walk: &mut Walk, random: &mut Random) {
    let show = |walk: &mut Walk, response| walk.update(&answered(response).unconverged());
    show(walk, only_block(0));
    show(walk, only_block(1));
    show(walk, only_block(2));
    show(walk, Vec::new());
    show(walk, blocks_with(&[(0, 9.0), (3, 1.0)]));
    show(walk, blocks_with(&[(0, 8.9), (3, 1.1)]));
    let mut first_band = only_block(3);
    (first_band[0][1], first_band[3][1]) = (1.0, 0.0);
    show(walk, first_band);
    show_on_rings(walk);
    let call = answered(Vec::new()).unconverged();
    walk.update(&aimed_at_the_target(random, &learner(), call));
}

/// A section's echo is a product of sums; renders are halved before they are
/// added; echoes may be infinite.
fn show_on_rings(walk: &mut Walk) {
    let show = |walk: &mut Walk, place: usize, renders: usize, ring: &[f32], response| {
        let spectra: Vec<Spectrum> = ring.iter().map(|&value| [value; BANDS]).collect();
        let call = answered(response).unconverged();
        walk.update(&call.on_ring(renders, place, &spectra));
    };
    let apart = blocks_with(&[(1, 1.0), (3, 0.05)]);
    show(walk, 0, 1, &[1.0, 0.0, 0.0, 1.0], apart.clone());
    show(walk, 3, 1, &[0.0, 0.0, 1.0, 1.0], apart);
    let least = f32::from_bits(1);
    let last = blocks_with(&[(3, GREATEST_VALUE)]);
    show(walk, 0, 1, &[0.0, 0.0, 0.0, least], last.clone());
    show(
        walk,
        0,
        2,
        &[0.0, 0.0, 0.0, 0.0, 0.0, 0.0, least, least],
        last,
    );
    let equal = blocks_with(&[(0, 1.0), (3, 1.0)]);
    show(walk, 0, 2, &[1.0, 0.0, 0.0, 0.0, 0.0, 0.0, 0.0, 1.0], equal);
    let greatest = blocks_with(&[(0, GREATEST_VALUE), (3, GREATEST_VALUE)]);
    show(walk, 0, 1, &[GREATEST_VALUE; 4], greatest.clone());
    show(walk, 0, 1, &[1.0, 1.0, 1.0, GREATEST_VALUE], greatest);
}

/// Averages at the limits, one step beside them, and special ones.
fn averages(walk: &mut Walk) {
    let values: Vec<f32> = SPECIALS
        .into_iter()
        .chain(beside(1.0))
        .chain(beside(4.0))
        .collect();
    for block in [0, 3] {
        let mut call = answered(only_block(block)).unconverged();
        for band in 0..BANDS {
            call.averages[PLAIN][band] = values[band % values.len()];
            call.averages[COMPENSATED][band] = values[(band + 5) % values.len()];
        }
        walk.update(&call);
    }
}

/// Subbands that count or do not, and bands that count for one or do not.
fn moves(walk: &mut Walk) {
    let lesson = answered(only_block(3));
    let mut with_render = |fill: &dyn Fn(&mut [f32])| {
        let mut call = lesson.clone();
        call.render.fill(0.0);
        fill(&mut call.render);
        walk.update(&call);
    };
    with_render(&|render| render[0] = 1e12);
    with_render(&|render| render[64] = 1e12);
    for level in beside(T) {
        with_render(&|render| SUBBANDS[..6].iter().for_each(|&band| render[band] = level));
    }
    with_render(&|render| render.fill(1e7));
    let mut no_residual = lesson.clone();
    no_residual.residual.fill(-0.0);
    walk.update(&no_residual);
    for band in [0, 1, 64] {
        let mut response = only_block(3);
        (response[0][band], response[3][band]) = (1.0, 0.0);
        walk.update(&answered(response));
    }
    walk.update(&Call {
        capture: vec![GREATEST_VALUE; BANDS],
        residual: vec![f32::from_bits(1); BANDS],
        ..lesson.clone()
    });
    let mut lower = lesson.clone();
    lower.capture.fill(1.5);
    walk.update(&lower);
    walk.reset();
    walk.update(&lesson);
}

/// Settings about their limits, two maxima, and one section.
fn limits(walk: &mut Walk) {
    for sections in [0, 1, 2, 4, 5, 9, u32::MAX] {
        walk.start(&start(SETTINGS[0], true, 1, [sections, 6, 128]));
    }
    for [length, headroom] in [[0, 0], [17, 0], [16, 1_024], [16, 896], [16, 960], [2, 63]] {
        walk.start(&start(SETTINGS[0], true, 1, [2, length, headroom]));
    }
    for limits in [
        [0.5, 4.0, 1.5],
        [1.0, f32::NAN, 1.5],
        [1.0, 4.0, GREATEST_ERLE.next_up()],
    ] {
        walk.start(&start(limits, true, 5, [9, 6, 0]));
    }
    walk.start(&start(SETTINGS[0], true, 5, [9, 6, 0]));
    walk.start(&start(SETTINGS[0], false, 2, [2, 2, 0]));
    let mut two = flat(&[true, false], [LOUD, 4.0, 1.0], 90.0);
    two.averages[COMPENSATED].fill(0.0);
    walk.update(&two);
    walk.start(&start(SETTINGS[0], true, 1, [1, 4, 256]));
    for slots in [3, 4] {
        walk.update(&answered(only_block(0)).on_ones(slots));
    }
}

/// Some faults alone, each bad value among them, more response blocks than the
/// filter has, some faults together, and a good call at the end.
fn faults(walk: &mut Walk) {
    walk.start(&start(SETTINGS[0], true, 1, FILTER));
    let good = answered(only_block(0)).on_ones(3);
    let (counts, rest) = FAULTS.split_at(4);
    let (lengths, values) = rest.split_at(1);
    for (groups, first, step) in [(counts, 2, 3), (lengths, 0, 2), (values, 0, 1)] {
        for call in singles(&good, groups).iter().skip(first).step_by(step) {
            walk.update(call);
        }
    }
    walk.update(&with_count(&good, 0, FILTER[1] + 1));
    let mut call = good.clone();
    for group in FAULTS.iter().rev() {
        group[0](&mut call);
        walk.update(&call);
    }
    walk.update(&good);
}

fn random_calls(walk: &mut Walk, random: &mut Random, channels: usize) {
    let start = start(SETTINGS[7], channels != 3, channels, [2, 4, 70]);
    walk.start(&start);
    for _ in 0..2 {
        let call = any_flags(channels).call(random, &start);
        walk.update(&call);
    }
    walk.reset();
}

/// Calls of any flags on a ring of as many slots as there are channels.
pub fn any_flags(channels: usize) -> Manner {
    Manner {
        slots: channels,
        renders: 1 + channels % 2,
        flags: Flags::Any,
        ..LOUD_MANNER
    }
}
