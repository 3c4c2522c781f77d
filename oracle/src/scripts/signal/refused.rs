//! Calls that are turned away, for one fault and for several.

use super::stretches::{Manner, LOUD_MANNER};
use super::{start, teach, Filter, Walk, WIDE};
use crate::judge::{BANDS, BLOCK_SAMPLES};
use crate::kinds::echo_call;
use crate::kinds::signal::{Call, COMPENSATED, PLAIN};
use crate::scripts::faults::{
    at_each_place, put, shorten, singles_and_pairs, with_good_between, Fault, Lends,
};
use crate::scripts::random::Random;
use crate::scripts::Script;

impl<const AVERAGES: usize> Lends for echo_call::Call<AVERAGES> {
    fn lists(&mut self) -> Vec<&mut Vec<f32>> {
        let mut lists = vec![
            &mut self.render,
            &mut self.capture,
            &mut self.residual,
            &mut self.ring,
        ];
        lists.extend(&mut self.averages);
        lists.push(&mut self.responses);
        lists
    }
}

/// The faults, by the order in which they are judged.
pub const FAULTS: [&[Fault<Call>]; 6] = [&CHANNELS, &RENDERS, &SLOTS, &PLACES, &LENGTHS, &VALUES];

/// Counts that are not the state's (21); the lists stay as they are. Above 16,
/// an update still says 16 response block counts.
const CHANNELS: [Fault<Call>; 8] = [
    |call| call.channels = 0,
    |call| call.channels = call.channels % 4 + 1,
    |call| call.channels = 5,
    |call| call.channels = 16,
    |call| call.channels = 17,
    |call| call.channels = call.channels.wrapping_add(256),
    |call| call.channels |= 1 << 31,
    |call| call.channels = u32::MAX,
];

/// Render channels out of range (2).
const RENDERS: [Fault<Call>; 4] = [
    |call| call.renders = 0,
    |call| call.renders = 3,
    |call| call.renders = call.renders.wrapping_add(65_536),
    |call| call.renders = u32::MAX,
];

/// Slots out of range, or fewer than the headroom blocks of the scripts here (4).
const SLOTS: [Fault<Call>; 6] = [
    |call| call.slots = 0,
    |call| call.slots = 33,
    |call| call.slots = call.slots.wrapping_add(256),
    |call| call.slots |= 1 << 31,
    |call| call.slots = u32::MAX,
    |call| {
        let renders = (call.renders as usize).clamp(1, 2);
        call.slots = FILTER[2] / BLOCK_SAMPLES - 1;
        call.ring.truncate(call.slots as usize * renders * BANDS);
    },
];

/// A read place not below the slots (9).
const PLACES: [Fault<Call>; 4] = [
    |call| call.place = call.slots,
    |call| call.place = call.slots.wrapping_add(1),
    |call| call.place |= 1 << 31,
    |call| call.place = u32::MAX,
];

/// Lists of another length than the counts ask, and response block counts above
/// the filter length (5).
const LENGTHS: [Fault<Call>; 30] = [
    |call| call.flags.push(true),
    |call| shorten(&mut call.flags, 1),
    |call| call.flags.extend([false; 256]),
    |call| call.render.push(0.0),
    |call| shorten(&mut call.render, 1),
    |call| call.render.clear(),
    |call| call.capture.extend([1.0; BANDS]),
    |call| shorten(&mut call.capture, 1),
    |call| call.residual.push(0.0),
    |call| shorten(&mut call.residual, BANDS),
    |call| move_last(&mut call.capture, &mut call.residual),
    |call| call.ring.push(1.0),
    |call| shorten(&mut call.ring, BANDS),
    |call| call.ring.clear(),
    |call| call.slots = call.slots % 32 + 1,
    |call| call.renders = 3_u32.wrapping_sub(call.renders),
    |call| call.averages[PLAIN].push(1.0),
    |call| shorten(&mut call.averages[PLAIN], 1),
    |call| call.averages[PLAIN].clear(),
    |call| call.averages[COMPENSATED].extend([1.0; BANDS]),
    |call| shorten(&mut call.averages[COMPENSATED], BANDS),
    |call| call.averages[COMPENSATED].clear(),
    |call| {
        let [plain, compensated] = &mut call.averages;
        move_last(plain, compensated);
    },
    |call| call.responses.push(1.0),
    |call| shorten(&mut call.responses, 1),
    |call| call.responses.extend([1.0; BANDS]),
    |call| call.responses.clear(),
    |call| add_to_count(call, 0, 1),
    |call| add_to_count(call, 0, 1 << 30),
    |call| {
        // As a 32-bit sum the counts are right.
        add_to_count(call, 0, 1 << 31);
        add_to_count(call, usize::MAX, 1 << 31);
    },
];

/// Response block counts about the filter length, with as many responses.
fn about_the_filter(good: &Call) -> Vec<Call> {
    let channels = 0..good.response_blocks.len();
    let about = |channel| [7, 8, 9, 16, 17, 40].map(|count| with_count(good, channel, count));
    channels.flat_map(about).collect()
}

/// A call with another number of response blocks for a channel.
pub fn with_count(good: &Call, channel: usize, count: u32) -> Call {
    let mut call = good.clone();
    call.response_blocks[channel] = count;
    let blocks: u32 = call.response_blocks.iter().sum();
    call.responses.resize(BANDS * blocks as usize, 1.0);
    call
}

fn move_last(from: &mut Vec<f32>, to: &mut Vec<f32>) {
    to.extend(from.pop());
}

/// Adds to the count of a channel, or of the last.
fn add_to_count(call: &mut Call, channel: usize, more: u32) {
    let last = call.response_blocks.len().saturating_sub(1);
    if let Some(count) = call.response_blocks.get_mut(channel.min(last)) {
        *count = count.wrapping_add(more);
    }
}

/// Values out of range (6), wherever the lists are not empty.
const VALUES: [Fault<Call>; 10] = [
    |call| put(&mut call.render, 0, f32::NAN),
    |call| put(&mut call.render, usize::MAX, -f32::from_bits(1)),
    |call| put(&mut call.capture, 0, f32::from_bits(0x7180_0001)),
    |call| put(&mut call.residual, usize::MAX, f32::INFINITY),
    |call| put(&mut call.ring, 0, -1.0),
    |call| put(&mut call.ring, usize::MAX, f32::NAN),
    |call| put(&mut call.averages[PLAIN], BANDS, f32::NEG_INFINITY),
    |call| put(&mut call.averages[COMPENSATED], usize::MAX, -f32::NAN),
    |call| put(&mut call.responses, 0, f32::from_bits(0x7180_0001)),
    |call| put(&mut call.responses, usize::MAX, -f32::from_bits(1)),
];

/// Three sections in 8 blocks, with three blocks of headroom.
pub const FILTER: Filter = [3, 8, 200];

/// Each fault alone and each two of different groups, and bad values at many
/// places, with good calls between them that show what was left standing. Onset
/// detection is off for some numbers of channels: all is judged all the same.
pub fn script(channels: usize) -> Script {
    let mut random = Random::new(140 + channels as u64);
    let start = start(WIDE, channels.is_multiple_of(2), channels, FILTER);
    let manner = Manner {
        slots: 3 + channels,
        renders: 1 + channels / 2 % 2,
        ..LOUD_MANNER
    };
    let good = manner.call(&mut random, &start);
    let mut walk = Walk::started(&start);
    teach(&mut walk, &start);
    let turned_away = singles_and_pairs(&good, &FAULTS);
    walk.updates(&with_good_between(&good, &turned_away));
    walk.updates(&with_good_between(&good, &about_the_filter(&good)));
    let places = at_each_place(&good);
    // Two calls for each place; more channels have more and larger ones.
    let some = places.chunks_exact(2).step_by(2 * channels - 1);
    let calls: Vec<Call> = some.flatten().cloned().collect();
    walk.updates(&with_good_between(&good, &calls));
    walk.script
}
