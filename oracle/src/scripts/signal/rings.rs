//! Every ring, read from every place, with every headroom in it.

use super::echoes::Echo;
use super::{start, teach, Walk, WIDE};
use crate::judge::{BLOCK_SAMPLES, RING_SLOTS};
use crate::kinds::signal::Start;
use crate::scripts::random::Random;
use crate::scripts::Script;
use std::ops::RangeInclusive;

/// The headrooms, in blocks, of each script.
pub const HEADROOMS: [RangeInclusive<u32>; 3] = [0..=4, 5..=9, 10..=14];

pub fn script(headrooms: RangeInclusive<u32>) -> Script {
    let mut random = Random::new(170 + u64::from(*headrooms.start()));
    let mut walk = Walk::default();
    for headroom in headrooms {
        let sections = (16 - headroom).min(8);
        let filter = [sections, 16, headroom * BLOCK_SAMPLES];
        let start = start(WIDE, true, 1, filter);
        walk.start(&start);
        teach(&mut walk, &start);
        for slots in RING_SLOTS {
            for place in 0..slots {
                one_place(&mut random, &mut walk, &start, [slots, place]);
            }
        }
    }
    walk.script
}

/// Shows the sections that are active on this ring. Small rings have two renders
/// by turns; a ring smaller than the headroom is turned away.
fn one_place(random: &mut Random, walk: &mut Walk, start: &Start, [slots, place]: [u32; 2]) {
    let renders = if slots <= 8 {
        1 + place as usize % 2
    } else {
        1
    };
    let ring = Echo::OneBlock.draw(random, slots as usize * renders);
    let answers = Echo::Near.draw(random, start.length_blocks as usize);
    let call = start.lesson(0, 2.0).unconverged();
    let call = call.on_ring(renders, place as usize, &ring);
    walk.update(&call.answering(&[answers]));
}
