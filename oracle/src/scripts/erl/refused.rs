//! Calls that are turned away, for one fault and for several.

use super::{call, Walk};
use crate::judge::BANDS;
use crate::kinds::erl::Call;
use crate::scripts::faults::{
    at_each_place, faulty, put, shorten, with_good_between, Fault, Lends,
};
use crate::scripts::flags::mask_flags;
use crate::scripts::random::Random;
use crate::scripts::spectra::{power, Power, Spectrum};
use crate::scripts::Script;

impl Lends for Call {
    fn lists(&mut self) -> Vec<&mut Vec<f32>> {
        vec![&mut self.render, &mut self.capture]
    }
}

/// The faults, by the order in which they are judged.
pub const FAULTS: [&[Fault<Call>]; 3] = [&COUNTS, &LENGTHS, &VALUES];

/// Counts out of range (2); the lists stay as they are.
pub const COUNTS: [Fault<Call>; 10] = [
    |call| call.captures = 0,
    |call| call.captures = 5,
    |call| call.captures = call.captures.wrapping_add(256),
    |call| call.captures |= 1 << 31,
    |call| call.captures = u32::MAX,
    |call| call.renders = 0,
    |call| call.renders = 3,
    |call| call.renders = call.renders.wrapping_add(65_536),
    |call| call.renders = u32::MAX,
    |call| (call.captures, call.renders) = (0, 0),
];

/// Lists of another length than the counts ask (5).
pub const LENGTHS: [Fault<Call>; 14] = [
    |call| call.flags.push(true),
    |call| shorten(&mut call.flags, 1),
    |call| call.flags.extend([false; 256]),
    |call| call.render.push(0.0),
    |call| shorten(&mut call.render, 1),
    |call| call.render.extend([1.0; BANDS]),
    |call| call.render.clear(),
    |call| call.capture.push(0.0),
    |call| shorten(&mut call.capture, 1),
    |call| call.capture.extend([1.0; BANDS]),
    |call| {
        call.capture
            .truncate(call.capture.len().saturating_sub(BANDS))
    },
    |call| call.capture.clear(),
    |call| call.captures = call.captures % 4 + 1,
    |call| call.renders = 3_u32.wrapping_sub(call.renders),
];

/// Values out of range (6), wherever the lists are not empty.
pub const VALUES: [Fault<Call>; 6] = [
    |call| put(&mut call.render, 0, f32::NAN),
    |call| put(&mut call.render, BANDS - 1, f32::INFINITY),
    |call| put(&mut call.render, usize::MAX, -f32::from_bits(1)),
    |call| put(&mut call.capture, 0, f32::from_bits(0x7180_0001)),
    |call| put(&mut call.capture, BANDS, -1.0),
    |call| put(&mut call.capture, usize::MAX, -f32::NAN),
];

/// Calls that are turned away, before the first start and after it.
pub fn script() -> Script {
    let mut random = Random::new(12);
    let good = good_call(&mut random, 0b11, 2, 2);
    let mut script = Script::default();
    script.erl_update(&good);
    script.erl_reset();
    let turned_away = faulty(&good, &FAULTS);
    turned_away.iter().for_each(|c| script.erl_update(c));
    let mut walk = Walk::after(script, 3);
    for (mask, captures, renders) in [(0b1, 1, 1), (0b10, 2, 2), (0b1001, 4, 2), (0, 3, 1)] {
        let good = good_call(&mut random, mask, captures, renders);
        walk.start(3);
        walk.updates(&with_good_between(&good, &faulty(&good, &FAULTS)));
        walk.reset();
        walk.updates(&with_good_between(&good, &at_each_place(&good)));
    }
    for captures in 0..=6 {
        for renders in 0..=4 {
            walk.update(&good_call(&mut random, 0b110101, captures, renders));
        }
    }
    walk.script
}

/// A call with lists as its counts ask, whether the counts are in range or not.
pub fn good_call(random: &mut Random, mask: u32, captures: usize, renders: usize) -> Call {
    let mut spectrum = |how| -> Spectrum { std::array::from_fn(|_| power(random, how)) };
    let renders: Vec<Spectrum> = (0..renders).map(|_| spectrum(Power::Loud)).collect();
    let captures: Vec<Spectrum> = (0..captures).map(|_| spectrum(Power::Near)).collect();
    call(&mask_flags(mask, captures.len()), &renders, &captures)
}
