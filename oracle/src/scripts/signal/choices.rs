//! Every choice of sections, filter length and headroom that is accepted.

use super::echoes::Echo;
use super::{start, teach, Walk, WIDE};
use crate::judge::{self, BLOCK_SAMPLES, FILTER_LENGTH_BLOCKS};
use crate::kinds::signal::Start;
use crate::scripts::random::Random;
use crate::scripts::spectra::Spectrum;
use crate::scripts::Script;

/// How many calls show what was learnt.
const SHOWN: usize = 4;

/// For filters of so many sections.
pub fn script(sections: u32) -> Script {
    let mut random = Random::new(160 + u64::from(sections));
    let mut walk = Walk::default();
    for length in FILTER_LENGTH_BLOCKS {
        for blocks in 0..length {
            let samples = blocks * BLOCK_SAMPLES + random.below(BLOCK_SAMPLES);
            if judge::sections(sections, length, samples).is_ok() {
                let filter = [sections, length, samples];
                choice(
                    &mut random,
                    &mut walk,
                    &start(WIDE, blocks % 3 != 0, 1, filter),
                );
            }
        }
    }
    walk.script
}

/// Learns, and shows in which section each block lies: in each band most of the
/// echo is in one block.
fn choice(random: &mut Random, walk: &mut Walk, start: &Start) {
    walk.start(start);
    teach(walk, start);
    for shown in 0..SHOWN {
        let renders = 1 + shown % 2;
        let slots = start.least_ring() + random.below(6) as usize;
        let place = random.below(slots as u32) as usize;
        let ring = Echo::Near.draw(random, slots * renders);
        let answers: Vec<Spectrum> = Echo::OneBlock.draw(random, start.length_blocks as usize);
        let call = start.lesson(0, 2.0).unconverged();
        walk.update(&call.on_ring(renders, place, &ring).answering(&[answers]));
    }
}
