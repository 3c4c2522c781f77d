//! Calls that are turned away, for one fault and for several.

use super::{call, SETTINGS};
use crate::judge::BANDS;
use crate::kinds::call::Call;
use crate::kinds::part::{Part, Settings};
use crate::scripts::faults::{
    at_each_place, faulty, put, shorten, with_good_between, Fault, Lends,
};
use crate::scripts::flags::mask_flags;
use crate::scripts::random::Random;
use crate::scripts::spectra::{power, Power, Spectrum};
use crate::scripts::walk::Walk;
use crate::scripts::Script;

impl Lends for Call {
    fn lists(&mut self) -> Vec<&mut Vec<f32>> {
        vec![&mut self.render, &mut self.capture, &mut self.residual]
    }
}

/// The faults, by the order in which they are judged.
pub const FAULTS: [&[Fault<Call>]; 3] = [&COUNTS, &LENGTHS, &VALUES];

/// Counts that are not the state's (21); the lists stay as they are.
const COUNTS: [Fault<Call>; 6] = [
    |call| call.channels = 0,
    |call| call.channels = call.channels % 4 + 1,
    |call| call.channels = 5,
    |call| call.channels = call.channels.wrapping_add(256),
    |call| call.channels |= 1 << 31,
    |call| call.channels = u32::MAX,
];

/// Lists of another length than the count asks (5).
const LENGTHS: [Fault<Call>; 15] = [
    |call| call.flags.push(true),
    |call| shorten(&mut call.flags, 1),
    |call| call.flags.extend([false; 256]),
    |call| call.render.push(0.0),
    |call| shorten(&mut call.render, 1),
    |call| call.render.extend([1.0; BANDS]),
    |call| call.render.clear(),
    |call| call.capture.push(0.0),
    |call| shorten(&mut call.capture, 1),
    |call| call.capture.extend([1.0; BANDS]),
    |call| call.capture.clear(),
    |call| call.residual.push(0.0),
    |call| shorten(&mut call.residual, BANDS),
    |call| call.residual.extend([1.0; BANDS]),
    |call| {
        let last = call.capture.pop();
        call.residual.extend(last);
    },
];

/// Values out of range (6), wherever the lists are not empty.
const VALUES: [Fault<Call>; 7] = [
    |call| put(&mut call.render, 0, f32::NAN),
    |call| put(&mut call.render, usize::MAX, -f32::from_bits(1)),
    |call| put(&mut call.capture, 0, f32::from_bits(0x7180_0001)),
    |call| put(&mut call.capture, usize::MAX, -f32::NAN),
    |call| put(&mut call.residual, 0, f32::INFINITY),
    |call| put(&mut call.residual, BANDS, -1.0),
    |call| put(&mut call.residual, usize::MAX, f32::NEG_INFINITY),
];

/// Faults of all kinds, and a bad value at each place, with good calls between
/// them that show what was left standing. Their renders are of this manner.
pub fn script<P: Part>(channels: usize, render: Power) -> Script {
    let start = |limits, switches| P::Start::new(limits, switches, channels as u32);
    let mut random = Random::new(40 + channels as u64);
    let good = good_call(&mut random, render, 0b1011, channels);
    let mut walk = Walk::<P>::started(&start(SETTINGS[0], 0b11));
    let turned_away = faulty(&good, &FAULTS);
    walk.updates(&with_good_between(&good, &turned_away));
    let switches = if channels > 2 { 0b11 } else { 0 };
    walk.start(&start(SETTINGS[1], switches));
    for call in turned_away.iter().step_by(37) {
        walk.repeat(7, call);
        walk.repeat(5, &good);
    }
    walk.updates(&with_good_between(&good, &at_each_place(&good)));
    for other in 0..=6 {
        walk.update(&good_call(&mut random, render, 0b10_1011, other));
    }
    walk.script
}

/// A call with lists as its count asks, whether the count is in range or not.
pub fn good_call(random: &mut Random, render: Power, mask: u32, channels: usize) -> Call {
    let mut spectrum = |how| -> Spectrum { std::array::from_fn(|_| power(random, how)) };
    let captures: Vec<Spectrum> = (0..channels).map(|_| spectrum(Power::Loud)).collect();
    let residuals: Vec<Spectrum> = (0..channels).map(|_| spectrum(Power::Near)).collect();
    let render = spectrum(render);
    call(&mask_flags(mask, channels), &render, &captures, &residuals)
}
