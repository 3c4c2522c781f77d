//! What comes between the updates up to the 51st, from which on factors move:
//! resets, starts, unconverged and refused calls, and subbands and channels that
//! stand at different counts.

use super::calls::SUBBANDS;
use super::{start, Walk, UPDATES_WITHOUT_FACTOR, WIDE};
use crate::audio_processing::aec3::signal_dependent_erle_estimator::peek_channel;
use crate::kinds::signal::{Call, Start, COMPENSATED};
use crate::scripts::flags::mask_flags;
use crate::scripts::part::SETTINGS;
use crate::scripts::Script;
use std::ops::Range;

/// The updates after which something happens.
const HELD: [usize; 8] = [0, 1, 25, 48, 49, 50, 51, 52];

pub fn script(channels: usize) -> Script {
    let mut walk = Walk::default();
    let start = start(WIDE, channels != 3, channels, [3, 6, 64]);
    for held in HELD {
        for event in EVENTS {
            walk.start(&start);
            lessons(&mut walk, &start, 0..held);
            event(&mut walk, &start);
            let counted = match walk.updates_of_a_subband() {
                0 => 0,
                _ => held,
            };
            lessons(&mut walk, &start, counted..UPDATES_WITHOUT_FACTOR + 4);
        }
    }
    subbands_apart(&mut walk, &start);
    channels_apart(&mut walk, &start);
    walk.script
}

impl Walk {
    /// The updates that the first channel's last subband has counted.
    fn updates_of_a_subband(&self) -> usize {
        let signal = self.estimator.as_ref().expect("an accepted start");
        peek_channel(&signal.estimator, 0).updates[5]
    }
}

/// Converged calls, the echo in one section after the other.
fn lessons(walk: &mut Walk, start: &Start, turns: Range<usize>) {
    for turn in turns {
        walk.update(&lesson(start, turn));
    }
}

fn lesson(start: &Start, turn: usize) -> Call {
    let section = turn % start.sections as usize;
    start.lesson(section, 2.0 + 4.0 * section as f32)
}

/// What happens at each number of updates.
const EVENTS: [fn(&mut Walk, &Start); 8] = [
    |_, _| (),
    |walk, _| walk.reset(),
    |walk, start| walk.start(start),
    |walk, start| {
        walk.start(&super::example_start());
        walk.start(start);
    },
    |walk, start| walk.update(&lesson(start, 1).unconverged()),
    |walk, start| {
        let mut refused = lesson(start, 0);
        *refused.averages[COMPENSATED].last_mut().expect("a channel") = f32::NAN;
        walk.update(&refused);
    },
    |walk, start| {
        let mut silent = lesson(start, 0);
        silent.residual.fill(0.0);
        walk.update(&silent);
    },
    |walk, start| {
        let mut quiet = lesson(start, 2);
        quiet.render[1..].fill(0.0);
        walk.update(&quiet);
    },
];

/// Each subband begins to count two updates after the one before it, first from
/// the lowest and then from the highest on.
fn subbands_apart(walk: &mut Walk, start: &Start) {
    for descending in [false, true] {
        walk.start(start);
        for turn in 0..UPDATES_WITHOUT_FACTOR + 16 {
            let mut call = lesson(start, turn);
            for (subband, bounds) in SUBBANDS.windows(2).enumerate() {
                let rank = if descending { 5 - subband } else { subband };
                if turn < 2 * rank {
                    call.render[bounds[0]..bounds[1]].fill(1.0);
                }
            }
            walk.update(&call);
        }
    }
}

/// Every mixture of flags for a while, then all channels together.
fn channels_apart(walk: &mut Walk, start: &Start) {
    let channels = start.channels();
    walk.start(&Start {
        settings: super::start(SETTINGS[7], true, channels, [2, 2, 0]).settings,
        ..*start
    });
    for mask in 0..1 << channels {
        for turn in 0..4 {
            walk.update(&Call {
                flags: mask_flags(mask, channels),
                ..lesson(start, turn)
            });
        }
    }
    lessons(walk, start, 0..UPDATES_WITHOUT_FACTOR);
}
