//! Scripts of log2, ring places and filter sections.

use super::random::Random;
use super::Script;

const SIGN: u32 = 1 << 31;

/// Both zeros, subnormals, infinities, NaNs of both signs and several payloads,
/// numbers about 1 and 4, and patterns that as whole numbers lie about 2^24.
pub const LOG2_SPECIALS: [u32; 38] = [
    0x0000_0000,
    0x8000_0000,
    0x0000_0001,
    0x0000_0002,
    0x0000_0003,
    0x0040_0000,
    0x007F_FFFF,
    0x0080_0000,
    0x8000_0001,
    0x807F_FFFF,
    0x7F7F_FFFF,
    0xFF7F_FFFF,
    0x7F80_0000,
    0xFF80_0000,
    0x7F80_0001,
    0x7FA5_A5A5,
    0x7FBF_FFFF,
    0x7FC0_0000,
    0x7FC0_0001,
    0x7FFF_FFFF,
    0xFF80_0001,
    0xFFA5_A5A5,
    0xFFBF_FFFF,
    0xFFC0_0000,
    0xFFC0_0001,
    0xFFFF_FFFF,
    0x3F7F_FFFF,
    0x3F80_0000,
    0x3F80_0001,
    0xBF80_0000,
    0x4080_0000,
    16_777_215,
    16_777_216,
    16_777_217,
    16_777_218,
    16_777_219,
    16_777_220,
    16_777_221,
];

const RANDOM_PATTERNS: u32 = 2_000_000;

pub fn log2() -> Script {
    let mut script = Script::default();
    for exponent in 0..=255 {
        let first = exponent << 23;
        for pattern in [first, first + 1, first + (1 << 22), first + (1 << 23) - 1] {
            script.log2(pattern);
            script.log2(SIGN | pattern);
        }
    }
    for pattern in LOG2_SPECIALS {
        script.log2(pattern);
    }
    for pattern in rounding_edges() {
        script.log2(pattern);
    }
    let mut random = Random::new(1);
    for count in 0..RANDOM_PATTERNS {
        script.log2(random_pattern(&mut random, count));
    }
    script
}

/// Patterns half way between two binary32 numbers, taken as whole numbers, and
/// their neighbours.
fn rounding_edges() -> Vec<u32> {
    let mut patterns = Vec::new();
    for exponent in 24..=30 {
        let step = 1 << (exponent - 23);
        for steps in [0, 1, 2, 3, 1 << 22, (1 << 23) - 2, (1 << 23) - 1] {
            let half_way = (1 << exponent) + steps * step + step / 2;
            patterns.extend([half_way - 1, half_way, half_way + 1]);
        }
    }
    patterns
}

/// By turns: any pattern, one without sign, one of few bits, and one half way
/// between two binary32 numbers.
pub fn random_pattern(random: &mut Random, turn: u32) -> u32 {
    let pattern = random.u32();
    match turn % 4 {
        0 => pattern,
        1 => pattern & !SIGN,
        2 => pattern >> random.below(32),
        _ => {
            let exponent = 24 + random.below(7);
            let step = 1 << (exponent - 23);
            (1 << exponent) + (pattern >> 9) * step + step / 2
        }
    }
}

pub fn ring() -> Script {
    let mut script = Script::default();
    for slots in 0..=33 {
        for place in (0..=slots + 1).chain([1 << 31, u32::MAX]) {
            offsets().for_each(|offset| script.ring(slots, place, offset));
        }
    }
    for slots in HUGE.into_iter().chain([34, 64, 255]) {
        for place in [0, 1, 31, slots - 1, slots, slots.wrapping_add(1)] {
            offsets().for_each(|offset| script.ring(slots, place, offset));
        }
    }
    script
}

/// All small offsets, and the ends of the range.
fn offsets() -> impl Iterator<Item = i32> {
    let least = i32::MIN..=i32::MIN + 2;
    let greatest = i32::MAX - 2..=i32::MAX;
    (-40..=40).chain(least).chain(greatest)
}

/// Numbers far above every limit, some with a small low byte or half.
const HUGE: [u32; 9] = [
    256,
    257,
    65_538,
    (1 << 24) + 3,
    (1 << 31) - 1,
    1 << 31,
    (1 << 31) + 2,
    u32::MAX - 1,
    u32::MAX,
];

pub fn sections() -> Script {
    let mut script = Script::default();
    for sections in (0..=9).chain(HUGE) {
        for length in (0..=17).chain(HUGE) {
            for headroom in (0..=1_100).step_by(16) {
                script.sections(sections, length, headroom);
            }
            for headroom in [63, 65, 127, 129, 1_023, 1_025].into_iter().chain(HUGE) {
                script.sections(sections, length, headroom);
            }
        }
    }
    script
}
