//! What makes a record of a trace bad, a group for each number, and what is just
//! inside the limits. The groups of a kind go from the one judged last to the one
//! judged first: so a fault that hides another is the one that counts.

use super::draft::Draft;
use super::{settled, Script, EXAMPLE};
use crate::judge::{BANDS, GREATEST_ERLE, GREATEST_VALUE};
use crate::scripts::faults::Fault;
use crate::trace::records::LENGTHS;

pub type Groups = &'static [&'static [Fault<Draft>]];

pub const OF_SETTINGS: Groups = &[
    &CHANNELS,
    &LIMITS,
    &SETTINGS_BYTES,
    &SETTINGS_LENGTHS,
    &SECOND,
    &KINDS,
    &FRAMES,
];

pub const OF_BLOCKS: Groups = &[&VALUES, &FLAGS, &BLOCK_LENGTHS, &UNSETTLED, &KINDS, &FRAMES];

pub const OF_RESETS: Groups = &[&FLAGS, &RESET_LENGTHS, &UNSETTLED, &KINDS, &FRAMES];

/// The places in a settings record.
const MIN: usize = 0;
const MAX_L: usize = 4;
const MAX_H: usize = 8;
const CHANNEL_COUNT: usize = 12;
const ONSET: usize = 13;
const STARTUP: usize = 14;
const BAND: usize = 18;

/// The longest body.
const LONGEST: usize = *LENGTHS.end() as usize - 2;

/// The sizes of the other kinds' bodies.
const SETTINGS_SIZE: usize = 19;
const RESET_SIZE: usize = 1;

const fn block_size(channels: usize) -> usize {
    260 + 521 * channels
}

/// 10. The first cuts the record short.
const FRAMES: [Fault<Draft>; 15] = [
    |d| d.keep_all_but_one(),
    |d| d.keep(1),
    |d| d.keep(3),
    |d| d.keep(4),
    |d| d.keep(5),
    |d| d.lack(d.right_length() + 1),
    |d| d.lack(*LENGTHS.end()),
    |d| d.say(0),
    |d| d.say(1),
    |d| d.say(LENGTHS.end() + 1),
    |d| d.exceed(LONGEST + 1),
    |d| d.say((1 << 16) + d.right_length()),
    |d| d.say((1 << 24) + d.right_length()),
    |d| d.say((1 << 31) + d.right_length()),
    |d| d.say(u32::MAX),
];

/// 11.
const KINDS: [Fault<Draft>; 14] = [
    |d| d.of_kind(0x0000),
    |d| d.of_kind(0x0004),
    |d| d.of_kind(0x0005),
    |d| d.of_kind(0x0006),
    |d| d.of_kind(0x0007),
    |d| d.of_kind(0x0009),
    |d| d.of_kind(0x00FF),
    |d| d.of_kind(0x0100),
    |d| d.of_kind(0x0101),
    |d| d.of_kind(0x0102),
    |d| d.of_kind(0x0200),
    |d| d.of_kind(0x0300),
    |d| d.of_kind(0x8003),
    |d| d.of_kind(0xFFFF),
];

/// 22.
const UNSETTLED: [Fault<Draft>; 1] = [|d| d.behind(Script::default(), 22)];

/// 23.
const SECOND: [Fault<Draft>; 1] = [|d| d.behind(settled(&EXAMPLE), 23)];

/// 12.
const SETTINGS_LENGTHS: [Fault<Draft>; 6] = [
    |d| d.grow(-1),
    |d| d.grow(1),
    |d| d.resize(0),
    |d| d.resize(RESET_SIZE),
    |d| d.resize(block_size(1)),
    |d| d.resize(LONGEST),
];

/// 12.
const BLOCK_LENGTHS: [Fault<Draft>; 9] = [
    |d| d.grow(-1),
    |d| d.grow(1),
    |d| d.resize(0),
    |d| d.resize(RESET_SIZE),
    |d| d.resize(SETTINGS_SIZE),
    |d| d.resize(block_size(0)),
    |d| d.resize(block_size(d.channels - 1)),
    |d| d.resize(block_size(d.channels + 1)),
    |d| d.resize(LONGEST),
];

/// 12.
const RESET_LENGTHS: [Fault<Draft>; 5] = [
    |d| d.grow(-1),
    |d| d.grow(1),
    |d| d.resize(SETTINGS_SIZE),
    |d| d.resize(block_size(1)),
    |d| d.resize(LONGEST),
];

/// 13, in the first flag byte of a block and in that of a reset; in a block's
/// last flag byte if there are more.
const FLAGS: [Fault<Draft>; 6] = [
    |d| d.put(0, [2], 13),
    |d| d.put(0, [3], 13),
    |d| d.put(0, [127], 13),
    |d| d.put(0, [128], 13),
    |d| d.put(0, [255], 13),
    |d| d.put(d.last_flag(), [2], 13),
];

/// 13.
const SETTINGS_BYTES: [Fault<Draft>; 8] = [
    |d| d.put(ONSET, [2], 13),
    |d| d.put(ONSET, [255], 13),
    |d| d.put(ONSET, [128], 13),
    |d| d.put(BAND, [65], 13),
    |d| d.put(BAND, [66], 13),
    |d| d.put(BAND, [128], 13),
    |d| d.put(BAND, [255], 13),
    |d| d.put(ONSET, [2, 0, 0, 0, 0, 65], 13),
];

/// 1.
const LIMITS: [Fault<Draft>; 12] = [
    |d| d.put(MIN, 1_f32.next_down().to_le_bytes(), 1),
    |d| d.put(MIN, f32::NAN.to_le_bytes(), 1),
    |d| d.put(MIN, (-1_f32).to_le_bytes(), 1),
    |d| d.put(MIN, 1.5_f32.next_up().to_le_bytes(), 1),
    |d| d.put(MAX_L, f32::NAN.to_le_bytes(), 1),
    |d| d.put(MAX_L, GREATEST_ERLE.next_up().to_le_bytes(), 1),
    |d| d.put(MAX_L, 1_f32.next_down().to_le_bytes(), 1),
    |d| d.put(MAX_L, f32::INFINITY.to_le_bytes(), 1),
    |d| d.put(MAX_H, (-f32::NAN).to_le_bytes(), 1),
    |d| d.put(MAX_H, GREATEST_ERLE.next_up().to_le_bytes(), 1),
    |d| d.put(MAX_H, 1_f32.next_down().to_le_bytes(), 1),
    |d| d.put(MAX_H, (-0_f32).to_le_bytes(), 1),
];

/// 2.
const CHANNELS: [Fault<Draft>; 4] = [
    |d| d.put(CHANNEL_COUNT, [0], 2),
    |d| d.put(CHANNEL_COUNT, [5], 2),
    |d| d.put(CHANNEL_COUNT, [128], 2),
    |d| d.put(CHANNEL_COUNT, [255], 2),
];

/// 6: in the render, in the first channel's capture and residual, and at the end.
const VALUES: [Fault<Draft>; 8] = [
    |d| d.put(d.power(0), f32::NAN.to_le_bytes(), 6),
    |d| d.put(d.power(0), (-1_f32).to_le_bytes(), 6),
    |d| {
        d.put(
            d.power(BANDS - 1),
            GREATEST_VALUE.next_up().to_le_bytes(),
            6,
        )
    },
    |d| d.put(d.power(BANDS), (-f32::from_bits(1)).to_le_bytes(), 6),
    |d| d.put(d.power(2 * BANDS - 1), f32::INFINITY.to_le_bytes(), 6),
    |d| d.put(d.power(2 * BANDS), (-f32::NAN).to_le_bytes(), 6),
    |d| d.put(d.last_power(), GREATEST_VALUE.next_up().to_le_bytes(), 6),
    |d| d.put(d.last_power(), f32::NEG_INFINITY.to_le_bytes(), 6),
];

/// Settings that pass.
pub const GOOD_SETTINGS: [Fault<Draft>; 11] = [
    |d| {
        d.channels = 4;
        d.pass(CHANNEL_COUNT, [4]);
    },
    |d| d.pass(BAND, [0]),
    |d| d.pass(BAND, [63]),
    |d| d.pass(BAND, [64]),
    |d| d.pass(ONSET, [0]),
    |d| d.pass(STARTUP, [255; 4]),
    |d| d.pass(STARTUP, [2, 0, 0, 0]),
    |d| d.pass(MAX_L, GREATEST_ERLE.to_le_bytes()),
    |d| d.pass(MAX_H, GREATEST_ERLE.to_le_bytes()),
    |d| d.pass(MAX_H, 1_f32.to_le_bytes()),
    |d| d.pass(MIN, 1.5_f32.to_le_bytes()),
];

/// Blocks that pass.
pub const GOOD_BLOCKS: [Fault<Draft>; 6] = [
    |d| d.pass(0, [0]),
    |d| d.pass(0, [1]),
    |d| d.pass(d.power(0), (-0_f32).to_le_bytes()),
    |d| d.pass(d.power(BANDS), GREATEST_VALUE.to_le_bytes()),
    |d| d.pass(d.last_power(), GREATEST_VALUE.to_le_bytes()),
    |d| d.pass(d.last_power(), (-0_f32).to_le_bytes()),
];

/// Resets that pass.
pub const GOOD_RESETS: [Fault<Draft>; 2] = [|d| d.pass(0, [0]), |d| d.pass(0, [1])];
