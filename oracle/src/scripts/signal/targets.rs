//! Echoes whose running sums lie at 0.9 of their total, and one step beside it.
//!
//! No section lies below 0.9 of the total while one before it does not: the
//! running sums of echoes, which are not below 0, never fall, also when rounded.

use super::calls::flat;
use super::roundings::rounded_at_the_target;
use super::{start, teach, Filter, Walk, WIDE};
use crate::judge::{BANDS, BLOCK_SAMPLES};
use crate::kinds::signal::{Call, Start};
use crate::scripts::random::Random;
use crate::scripts::spectra::{beside, Spectrum, LOUD};
use crate::scripts::Script;

/// How much of the total makes a section active.
pub const SHARE: f32 = 0.9;

/// How many calls aim at the target for one start.
const CALLS: u32 = 60;

/// For filters of so many sections.
pub fn script(sections: u32) -> Script {
    let mut random = Random::new(150 + u64::from(sections));
    let mut walk = Walk::default();
    for filter in filters(sections) {
        let channels = 1 + random.below(2) as usize;
        let start = start(WIDE, true, channels, filter);
        walk.start(&start);
        teach(&mut walk, &start);
        for turn in 0..CALLS {
            let flags = vec![turn % 8 == 7; channels];
            let call = flat(&flags, [LOUD, 30.0, 1.0], 500.0);
            walk.update(&aimed_at_the_target(&mut random, &start, call));
        }
        for turn in 0..CALLS {
            let renders = 1 + turn as usize % 2;
            walk.update(&rounded_at_the_target(&mut random, &start, renders));
        }
    }
    walk.script
}

fn filters(sections: u32) -> [Filter; 4] {
    let most = 16 - sections;
    [
        [sections, sections, 0],
        [sections, 16, 0],
        [sections, sections + 1, BLOCK_SAMPLES],
        [sections, 16, most * BLOCK_SAMPLES],
    ]
}

/// The call with such an echo in every band of every channel. The ring has a 1
/// for one block of each section alone, so that a section's echo is its response.
pub fn aimed_at_the_target(random: &mut Random, start: &Start, call: Call) -> Call {
    let length = start.length_blocks as usize;
    let blocks = &start.boundaries()[..start.sections as usize];
    let slots = length.max(start.least_ring());
    let place = random.below(slots as u32) as usize;
    let mut ring = vec![[0.0; BANDS]; slots];
    for block in blocks {
        ring[(place + block) % slots] = [1.0; BANDS];
    }
    let answers: Vec<Vec<Spectrum>> = (0..start.channels())
        .map(|_| responses(random, length, blocks))
        .collect();
    call.on_ring(1, place, &ring).answering(&answers)
}

/// Response blocks of a channel, with a power in the first block of each section.
fn responses(random: &mut Random, length: usize, blocks: &[usize]) -> Vec<Spectrum> {
    let mut responses = vec![[0.0; BANDS]; length];
    let bands: [Vec<f32>; BANDS] = std::array::from_fn(|_| echoes(random, blocks.len()));
    for (section, &block) in blocks.iter().enumerate() {
        responses[block] = std::array::from_fn(|band| bands[band][section]);
    }
    responses
}

/// Echoes of so many sections. The running sum of one of them is 0.9 of the total
/// or one step beside it; it may be made up of two, and the rest likewise. As the
/// sum is more than half of the total, all differences are exact.
fn echoes(random: &mut Random, sections: usize) -> Vec<f32> {
    let mut echoes = vec![0.0; sections];
    let exponent = random.below(200) as i32 - 100;
    let total = random.octave(exponent);
    let reached = random.one_of(&beside(SHARE * total));
    let at = random.below(sections as u32 - 1) as usize;
    let rest = total - reached;
    share(random, &mut echoes[..=at], reached);
    share(random, &mut echoes[at + 1..], rest);
    echoes
}

/// Puts a sum into one or two of the echoes, the last of them among them or not.
fn share(random: &mut Random, echoes: &mut [f32], sum: f32) {
    let count = echoes.len() as u32;
    let (one, other) = (random.below(count) as usize, random.below(count) as usize);
    let first = sum * (0.5 + 0.5 * random.unit());
    match one == other {
        true => echoes[one] = sum,
        false => (echoes[one], echoes[other]) = (first, sum - first),
    }
}
