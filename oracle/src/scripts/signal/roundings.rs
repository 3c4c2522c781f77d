//! Echoes of many terms whose running sum lies at 0.9 of the total, or one step
//! beside it: there each rounding of the sums before it counts.

use super::calls::flat;
use super::echoes::Echo;
use super::targets::SHARE;
use crate::audio_processing::aec3::signal_dependent_erle_estimator::peek_channel;
use crate::kinds::signal::{Call, Signal, Start};
use crate::kinds::standing::Estimator;
use crate::scripts::random::Random;
use crate::scripts::spectra::{beside, Spectrum, LOUD};

/// How far from the first guess a last response is sought, in steps.
const STEPS: u32 = 64;

/// An unconverged call with such an echo in most bands. Its responses end with
/// the first block of the last section.
pub fn rounded_at_the_target(random: &mut Random, start: &Start, renders: usize) -> Call {
    let last_block = start.boundaries()[start.sections as usize - 1];
    let channels = start.channels();
    let slots = start.least_ring() + random.below(9) as usize;
    let place = random.below(slots as u32) as usize;
    let ring = Echo::Near.draw(random, slots * renders);
    let call = flat(&vec![false; channels], [LOUD, 3.0, 1.0], 500.0);
    let call = call.on_ring(renders, place, &ring);
    let mut answers: Vec<Vec<Spectrum>> = (0..channels)
        .map(|_| Echo::Near.draw(random, last_block + 1))
        .collect();
    let slot = (place + last_block) % slots * renders;
    let power = mean(&ring[slot..slot + renders]);
    let sums = sums_before_the_last(start, &call.clone().answering(&answers));
    for (blocks, sums) in answers.iter_mut().zip(&sums) {
        let last = |band| last_response(random, sums[band], power[band]);
        blocks[last_block] = std::array::from_fn(last);
    }
    call.answering(&answers)
}

/// The mean of renders, added up as the source does.
fn mean(renders: &[Spectrum]) -> Spectrum {
    let share = 1.0 / renders.len() as f32;
    std::array::from_fn(|band| renders.iter().fold(0.0, |sum, x| sum + x[band] * share))
}

/// The running sums of the section before the last, for each channel.
fn sums_before_the_last(start: &Start, call: &Call) -> Vec<Spectrum> {
    let mut scratch = Signal::new(start);
    scratch.run(call);
    let section = start.sections as usize - 2;
    (0..start.channels())
        .map(|channel| peek_channel(&scratch.estimator, channel).echo_sums[section])
        .collect()
}

/// A response with which the sum before it is 0.9 of the total, or one step
/// beside that; the first guess if none is found.
fn last_response(random: &mut Random, sum: f32, power: f32) -> f32 {
    let wanted = random.one_of(&beside(sum));
    let guess = sum * (1.0 / SHARE - 1.0) / power;
    let (mut below, mut above) = (guess, guess);
    for _ in 0..STEPS {
        for response in [below, above] {
            if SHARE * (sum + power * response) == wanted {
                return response;
            }
        }
        (below, above) = (below.next_down(), above.next_up());
    }
    guess
}
