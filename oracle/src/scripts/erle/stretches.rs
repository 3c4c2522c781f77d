//! Random calls, in stretches of one manner each.

use super::borrowed::draw_reset;
use super::{whole, Start, Walk, STARTUPS};
use crate::scripts::faults::spoil;
use crate::scripts::flags::Flags;
use crate::scripts::random::Random;
use crate::scripts::signal::refused::FAULTS;
use crate::scripts::signal::stretches::{draw_start as draw_signal_start, Manner};
use crate::scripts::Script;

const UPDATES: u32 = 1_800;

/// The longest stretch; with no channel converged, long enough for holds to run
/// out.
const LONGEST: u32 = 90;
const LONGEST_REST: u32 = 600;

pub fn script(seed: u64) -> Script {
    let mut random = Random::new(5_000 + seed);
    let mut start = draw_start(&mut random);
    let mut walk = Walk::started(&start);
    let mut updates = 0;
    while updates < UPDATES {
        let manner = Manner::draw(&mut random, &start.signal);
        let calls = 1 + match manner.flags {
            Flags::None => random.below(LONGEST_REST),
            _ => random.below(LONGEST),
        };
        stretch(&mut random, &mut walk, &start, &manner, calls);
        updates += calls;
        match random.below(12) {
            0 => {
                start = draw_start(&mut random);
                walk.start(&start);
            }
            1..=2 => walk.reset_as(draw_reset(&mut random)),
            _ => (),
        }
    }
    walk.script
}

/// Most have few channels, as each has many lines; now and then no block passes
/// the startup phase.
fn draw_start(random: &mut Random) -> Start {
    let signal = draw_signal_start(random);
    let mut start = Start::drawn(random, signal);
    let settings = &mut start.signal.settings;
    settings.channels = random.one_of(&[1, 1, 1, 2, 2, settings.channels]);
    if random.below(3) == 0 {
        start.signal.sections = 1;
    }
    if random.below(24) == 0 {
        start.startup = STARTUPS[4];
    }
    start
}

/// So many calls of a manner. The echo stays the same for a while; now and then a
/// call is spoilt, or a reset comes after it.
fn stretch(random: &mut Random, walk: &mut Walk, start: &Start, manner: &Manner, calls: u32) {
    let mut echo = manner.echo(random, &start.signal);
    for _ in 0..calls {
        if random.below(12) == 0 {
            echo = manner.echo(random, &start.signal);
        }
        let mut call = manner.powers(random, start.channels(), None, echo.clone());
        if random.below(48) == 0 {
            spoil(random, &mut call, &FAULTS);
        }
        walk.update(&whole(&call));
        if random.below(200) == 0 {
            walk.reset_as(draw_reset(random));
        }
    }
}
