//! The whole estimator's part of the stored sample: document 01's example first,
//! then startup phases, resets, sections, limits, refusals and a few random calls.
//! Each update prints all figures, so there are few of them.

use super::{example_start, start, whole, with_echo, Start, Walk};
use crate::judge::{BLOCK_SAMPLES, GREATEST_ERLE};
use crate::kinds::erle::{Call, DelayChanged};
use crate::scripts::faults::singles;
use crate::scripts::part::{converged, infinite, quiet, POINTS, SETTINGS};
use crate::scripts::random::Random;
use crate::scripts::signal::calls::{flat, only_block};
use crate::scripts::signal::refused::{FAULTS, FILTER};
use crate::scripts::signal::sample::any_flags;
use crate::scripts::signal::UPDATES_WITHOUT_FACTOR;
use crate::scripts::spectra::LOUD;
use crate::scripts::Script;

/// Adds the calls to what stands in a script.
pub fn add(script: Script) -> Script {
    let mut walk = Walk::behind(script);
    calls_without_a_start(&mut walk);
    example(&mut walk);
    startup_phases(&mut walk);
    resets(&mut walk);
    sections(&mut walk);
    learn(&mut walk);
    limits(&mut walk);
    faults(&mut walk);
    let mut random = Random::new(19);
    two_channels(&mut walk, &mut random);
    four_channels(&mut walk, &mut random);
    walk.script
}

/// A ring of one slot that nothing answers, so that one section is active: the
/// first.
fn no_echo() -> Call {
    whole(&flat(&[true], [0.0; 3], 0.0))
}

/// The example's block, with this render.
fn block(render: f32) -> Call {
    with_echo(&converged(1, render, 3.0, 1.0), &no_echo())
}

/// Calls with none standing, before the first start and after one that is turned
/// away.
fn calls_without_a_start(walk: &mut Walk) {
    for filter in [[9, 16, 0], [2, 4, 256]] {
        walk.reset_as(DelayChanged(true));
        walk.update(&block(f32::NAN));
        walk.start(&start(0, SETTINGS[0], 1, filter));
        walk.update(&block(LOUD));
    }
}

/// Document 01's example, block by block, and a quiet block, which moves nothing.
fn example(walk: &mut Walk) {
    walk.start(&example_start());
    walk.each(POINTS, &block(LOUD));
    walk.update(&with_echo(&quiet(1), &no_echo()));
}

/// The first figure comes on block 6, 7 and 8; the first time with low energy, so
/// that the compensated stream decays at once. A refused block is not counted.
fn startup_phases(walk: &mut Walk) {
    for (startup, blocks, render) in [(1, 6, 0.0), (2, 7, LOUD), (3, 8, LOUD)] {
        walk.start(&start(startup, SETTINGS[0], 1, [1, 1, 0]));
        if startup == 3 {
            walk.update(&block(-1.0));
        }
        walk.each(blocks, &block(render));
    }
}

/// In a startup phase of four blocks and after two: if the delay did not change,
/// the next figure comes on the seventh block, and else on the ninth.
fn resets(walk: &mut Walk) {
    walk.start(&start(4, SETTINGS[0], 1, [1, 1, 0]));
    walk.each(2, &block(LOUD));
    walk.reset_as(DelayChanged(false));
    walk.each(7, &block(LOUD));
    walk.reset_as(DelayChanged(true));
    walk.each(9, &block(LOUD));
}

/// With one section the uncapped figures are the subband estimator's; with two
/// they are the plain ones, in which those of the same block count already. There
/// low energy lets the compensated stream decay at once.
fn sections(walk: &mut Walk) {
    for (count, render) in [(1, LOUD), (2, 0.0)] {
        walk.start(&start(0, SETTINGS[0], 1, [count, 2, 0]));
        let block = with_echo(&infinite(1, render), &no_echo());
        walk.each(POINTS, &block);
    }
}

/// Two sections learnt apart, up to the first moves of a factor, and unconverged
/// calls that show both. Without the clamps a quality comes to lie above 1. A reset
/// clears all parts, though the delay did not change.
fn learn(walk: &mut Walk) {
    let start = Start {
        to_zero: false,
        to_one: false,
        ..start(0, SETTINGS[0], 1, [2, 2, 0])
    };
    let first = UPDATES_WITHOUT_FACTOR / 2;
    walk.start(&start);
    walk.each(first, &start.lesson(0, 2.0));
    walk.each(UPDATES_WITHOUT_FACTOR + 2 - first, &start.lesson(1, 4.0));
    for section in [0, 1] {
        walk.update(&start.lesson(section, 2.0).unconverged());
    }
    walk.reset_as(DelayChanged(false));
}

/// Settings about their limits; those that are turned away print least.
fn limits(walk: &mut Walk) {
    for [sections, length, headroom] in [
        [0, 4, 0],
        [9, 16, 0],
        [5, 4, 0],
        [2, 17, 0],
        [1, 0, 0],
        [1, 1, 1_025],
        [8, 16, 576],
        [8, 16, 575],
    ] {
        walk.start(&start(0, SETTINGS[0], 1, [sections, length, headroom]));
    }
    for limits in [
        [0.5, 4.0, 1.5],
        [1.0, f32::NAN, 1.5],
        [1.0, 4.0, GREATEST_ERLE.next_up()],
        [2.0, 4.0, 1.5],
    ] {
        walk.start(&start(u32::MAX, limits, 5, [9, 4, 0]));
    }
    walk.start(&start(0, SETTINGS[0], 5, [9, 4, 0]));
    walk.start(&start(u32::MAX, SETTINGS[5], 1, [1, 1, 1_024]));
    walk.update(&block(LOUD));
    let slots = 1_024 / BLOCK_SAMPLES as usize;
    for slots in [slots - 1, slots] {
        walk.update(&block(LOUD).on_ones(slots));
    }
}

/// A fault of each sort, faults that are added to each other from the last judged
/// to the first, and a good call at the end.
fn faults(walk: &mut Walk) {
    walk.start(&start(0, SETTINGS[0], 1, FILTER));
    let mut good = flat(&[true], [LOUD, 3.0, 1.0], 2.0).on_ones(3);
    good = good.answering(&[only_block(0)]);
    for group in FAULTS {
        walk.update(&whole(&singles(&good, &[group])[1]));
    }
    let mut call = good.clone();
    for group in FAULTS.iter().rev() {
        group[0](&mut call);
        walk.update(&whole(&call));
    }
    walk.update(&whole(&good));
}

/// Random powers and echoes, onset detection off: the first channel comes to its
/// first figure, and the second, whose first block is unconverged, does not.
fn two_channels(walk: &mut Walk, random: &mut Random) {
    let mut start = start(1, SETTINGS[7], 2, [2, 4, 70]);
    start.signal.settings.onset = false;
    walk.start(&start);
    for block in 0..POINTS {
        let mut call = any_flags(2).call(random, &start.signal);
        call.flags = vec![true, block > 0];
        walk.update(&whole(&call));
    }
}

/// One call to the most channels.
fn four_channels(walk: &mut Walk, random: &mut Random) {
    let start = start(0, SETTINGS[7], 4, [3, 5, 70]);
    walk.start(&start);
    walk.update(&whole(&any_flags(4).call(random, &start.signal)));
}
