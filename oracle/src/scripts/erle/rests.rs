//! Long rests: holds that run out and the decay of the compensated stream, and
//! resets of both kinds in them.

use super::{start, Start, Walk};
use crate::kinds::erle::DelayChanged;
use crate::scripts::part::{POINTS, SETTINGS};
use crate::scripts::signal::UPDATES_WITHOUT_FACTOR;
use crate::scripts::Script;

/// Unconverged blocks after the last figure: about those where the decay begins
/// and the fullband quality is lost, and where the band waits; and many more.
const RESTS: [usize; 9] = [1, 97, 98, 99, 100, 150, 249, 250, 600];

/// For more channels than one only a few.
const SOME_RESTS: [usize; 2] = [99, 500];

pub fn script(channels: usize) -> Script {
    let mut walk = Walk::default();
    let rests = match channels {
        1 => &RESTS[..],
        _ => &SOME_RESTS,
    };
    for filter in [[1, 1, 0], [1 + channels as u32, 8, 64]] {
        let start = start(0, SETTINGS[1], channels, filter);
        for &rest in rests {
            walk.start(&start);
            for turn in 0..UPDATES_WITHOUT_FACTOR + 3 * POINTS {
                walk.update(&start.lesson_of_turn(turn));
            }
            rest_and_go_on(&mut walk, &start, rest);
        }
    }
    walk.script
}

/// The rest, with nothing or a reset of either kind behind it, and six blocks more.
/// In the second rest one channel converges.
fn rest_and_go_on(walk: &mut Walk, start: &Start, rest: usize) {
    for event in [None, Some(false), Some(true)] {
        for turn in 0..POINTS {
            walk.update(&start.lesson(turn % start.signal.sections as usize, 5e5));
        }
        let mut resting = start.lesson_of_turn(rest).unconverged();
        resting.flags[0] = start.channels() > 1 && event == Some(false);
        walk.each(rest, &resting);
        if let Some(changed) = event {
            walk.reset_as(DelayChanged(changed));
        }
    }
    walk.each(POINTS + 1, &start.lesson_of_turn(0));
}
