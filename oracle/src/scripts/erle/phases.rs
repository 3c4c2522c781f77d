//! What comes between the blocks of the startup phase and between the six points:
//! resets of both kinds, starts, unconverged and refused blocks.

use super::{start, Start, Walk, STARTUPS};
use crate::kinds::erle::DelayChanged;
use crate::scripts::part::{POINTS, SETTINGS};
use crate::scripts::signal::Filter;
use crate::scripts::Script;

/// One section and more.
const FILTERS: [Filter; 2] = [[1, 4, 64], [3, 6, 64]];

/// For one channel every choice of startup count, filter and event; for more,
/// only the longer startup phase.
pub fn script(channels: usize) -> Script {
    let mut walk = Walk::default();
    let startups = match channels {
        1 => &STARTUPS[..],
        _ => &STARTUPS[3..4],
    };
    for &startup in startups {
        for filter in FILTERS {
            let start = start(startup, SETTINGS[7], channels, filter);
            for held in 0..=POINTS + 2 {
                for event in EVENTS {
                    one_event(&mut walk, &start, held, event);
                }
            }
        }
    }
    walk.script
}

/// So many converged blocks, the event, and blocks until the next figure and one
/// more, whether they count anew or not.
fn one_event(walk: &mut Walk, start: &Start, held: usize, event: fn(&mut Walk, &Start)) {
    walk.start(start);
    for turn in 0..held {
        walk.update(&start.lesson_of_turn(turn));
    }
    event(walk, start);
    let startup = start.startup.min(5) as usize;
    for turn in 0..startup + POINTS + 1 {
        walk.update(&start.lesson_of_turn(turn));
    }
}

/// What happens after each number of blocks.
const EVENTS: [fn(&mut Walk, &Start); 8] = [
    |walk, _| walk.reset_as(DelayChanged(false)),
    |walk, _| walk.reset_as(DelayChanged(true)),
    |walk, _| {
        walk.reset_as(DelayChanged(true));
        walk.reset_as(DelayChanged(false));
    },
    |walk, start| walk.start(start),
    |walk, start| {
        let mut refused = *start;
        refused.signal.sections = 9;
        walk.start(&refused);
        walk.reset_as(DelayChanged(true));
        walk.update(&start.lesson_of_turn(0));
        walk.start(start);
    },
    |walk, start| walk.update(&start.lesson_of_turn(0).unconverged()),
    |walk, start| {
        // Turned away and not counted, in the startup phase too.
        let mut refused = start.lesson_of_turn(0);
        *refused.residual.last_mut().expect("a channel") = f32::NAN;
        walk.each(2, &refused);
        refused.place = refused.slots;
        walk.update(&refused);
    },
    |walk, start| {
        let mut quiet = start.lesson_of_turn(1);
        quiet.render.fill(1.0);
        walk.update(&quiet);
    },
];
