//! Starts with settings about their limits, and calls with none standing.

use super::calls::flat;
use super::{start, Filter, Walk, WIDE};
use crate::judge::{
    BANDS, BLOCK_SAMPLES, CAPTURE_CHANNELS, FILTER_LENGTH_BLOCKS, HEADROOM_SAMPLES,
};
use crate::kinds::signal::{Call, Start, PLAIN};
use crate::scripts::part::starts::{every_limits, WRONG_CHANNELS};
use crate::scripts::part::SETTINGS;
use crate::scripts::spectra::LOUD;
use crate::scripts::Script;

/// Numbers of sections about their limits and far off them.
const SECTIONS: [u32; 8] = [0, 1, 2, 3, 8, 9, 257, u32::MAX];

/// Filter lengths about their limits and far off them.
const LENGTHS: [u32; 9] = [0, 1, 2, 3, 10, 16, 17, 1 << 31, u32::MAX];

/// Headrooms about whole blocks, their limits and far off them.
const HEADROOMS: [u32; 12] = [
    0,
    63,
    64,
    127,
    128,
    895,
    896,
    1_023,
    1_024,
    1_025,
    1 << 16,
    u32::MAX,
];

/// Limits, channel counts and filters, in range and out of it, also together.
/// What each start leaves shows in an update.
pub fn script() -> Script {
    let mut walk = Walk::default();
    calls_without_a_start(&mut walk);
    for limits in every_limits().into_iter().step_by(3) {
        one_start(&mut walk, &start(limits, true, 1, [2, 4, 0]));
    }
    for filter in filters() {
        one_start(&mut walk, &start(SETTINGS[0], true, 1, filter));
    }
    for channels in WRONG_CHANNELS.into_iter().chain(CAPTURE_CHANNELS) {
        for limits in [SETTINGS[0], [1.0, f32::NAN, 1.0]] {
            for filter in [[2, 4, 0], [3, 2, 0], [1, 1, 1_024]] {
                one_start(&mut walk, &start(limits, false, channels as usize, filter));
            }
        }
    }
    for length in FILTER_LENGTH_BLOCKS {
        for headroom in HEADROOM_SAMPLES.step_by(BLOCK_SAMPLES as usize) {
            one_section(&mut walk, length, headroom);
        }
    }
    walk.script
}

fn filters() -> Vec<Filter> {
    let mut filters = Vec::new();
    for sections in SECTIONS {
        for length in LENGTHS {
            filters.extend(HEADROOMS.map(|headroom| [sections, length, headroom]));
        }
    }
    filters
}

fn one_start(walk: &mut Walk, start: &Start) {
    walk.start(start);
    match walk.estimator {
        Some(_) => walk.update(&start.lesson(0, 3.0)),
        None => walk.reset(),
    }
}

/// With one section nothing changes, but all of a call is judged, the ring
/// against the headroom too.
fn one_section(walk: &mut Walk, length: u32, headroom: u32) {
    walk.start(&start(WIDE, true, 1, [1, length, headroom]));
    let call = flat(&[true], [LOUD, 3.0, 1.0], 50.0);
    let call = call.answering(&[vec![[1.0; BANDS]; length as usize]]);
    let ring = headroom / BLOCK_SAMPLES;
    for slots in [ring.saturating_sub(1), ring.max(1), 32] {
        walk.update(&call.clone().on_ones(slots as usize));
    }
    let mut longer = call.clone().on_ones(32);
    longer.response_blocks[0] += 1;
    longer.responses.extend([1.0; BANDS]);
    walk.update(&longer);
    walk.update(&Call {
        place: 32,
        ..call.on_ones(32)
    });
}

/// Calls with none standing, before the first start and after one that is turned
/// away.
pub fn calls_without_a_start(walk: &mut Walk) {
    let good = flat(&[true], [LOUD, 3.0, 1.0], 2.0);
    let mut faulty = good.clone();
    faulty.flags.pop();
    faulty.averages[PLAIN][0] = f32::NAN;
    for filter in [[2, 4, 256], [9, 16, 0]] {
        walk.reset();
        walk.update(&good);
        walk.update(&faulty);
        walk.start(&start(SETTINGS[0], true, 1, filter));
    }
    walk.reset();
    walk.update(&good);
}
