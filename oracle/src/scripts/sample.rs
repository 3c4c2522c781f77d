//! The stored sample: document 01's bench values first, then limits, refusals
//! and a few random calls of the leaves, then of the ERL estimator, then of the
//! signal-dependent one, and a record cut short at the end.

use super::leaves::{random_pattern, LOG2_SPECIALS};
use super::random::Random;
use super::{erl, erle, signal, Script};

pub fn script() -> Script {
    let mut script = Script::default();
    bench_values(&mut script);
    log2_limits(&mut script);
    ring_limits(&mut script);
    section_limits(&mut script);
    random_calls(&mut script);
    script = erl::sample::add(script);
    script = signal::sample::add(script);
    script = erle::sample::add(script);
    script.log2(0x3F80_0000);
    script.bytes.pop();
    script
}

/// Document 01's bench values of log2, ring and sections, in its order.
fn bench_values(script: &mut Script) {
    script.log2(0x3F80_0000);
    script.log2(0x4080_0000);
    script.log2(16_777_217);
    script.ring(5, 3, -5);
    script.ring(5, 0, -1);
    script.ring(5, 4, 5);
    script.ring(5, 0, 6);
    script.sections(3, 13, 0);
    script.sections(3, 2, 0);
}

fn log2_limits(script: &mut Script) {
    LOG2_SPECIALS.iter().for_each(|&p| script.log2(p));
    for exponent in (0..255).step_by(16) {
        script.log2(exponent << 23);
        script.log2((exponent << 23) + (1 << 23) - 1);
    }
}

fn ring_limits(script: &mut Script) {
    for slots in [0, 1, 2, 5, 31, 32, 33, u32::MAX] {
        let size = slots.min(40) as i32;
        for place in [0, slots.saturating_sub(1), slots] {
            for offset in [-size - 1, -size, -1, 0, size, size + 1] {
                script.ring(slots, place, offset);
            }
        }
    }
    for offset in [i32::MIN, i32::MIN + 1, i32::MAX] {
        script.ring(5, 4, offset);
        script.ring(5, 5, offset);
    }
}

fn section_limits(script: &mut Script) {
    for sections in 0..=9_u32 {
        for length in [sections.saturating_sub(1), sections, 13, 16] {
            script.sections(sections, length, 0);
            script.sections(sections, length + 2, 128);
        }
    }
    for length in [0, 1, 5, 16, 17, u32::MAX] {
        script.sections(1, length, 1_024);
        script.sections(3, length, 63);
    }
    for headroom in [64, 127, 895, 896, 1_024, 1_025, u32::MAX] {
        script.sections(2, 16, headroom);
        script.sections(1, 16, headroom);
    }
}

fn random_calls(script: &mut Script) {
    let mut random = Random::new(3);
    for turn in 0..40 {
        script.log2(random_pattern(&mut random, turn));
        let slots = 1 + random.below(32);
        let offset = random.below(2 * slots + 1) as i32 - slots as i32;
        script.ring(slots, random.below(slots), offset);
        let (sections, length) = (1 + random.below(8), 1 + random.below(16));
        script.sections(sections, length, random.below(300));
    }
}
