//! The ERL part of the stored sample.

use super::refused::{good_call, COUNTS, FAULTS, LENGTHS, VALUES};
use super::{flat, spread, Walk, CHANNELS};
use crate::judge::BANDS;
use crate::scripts::faults::singles;
use crate::scripts::flags::{converged, mask_flags};
use crate::scripts::random::Random;
use crate::scripts::spectra::{any_power, beside, powers, Power, SPECIALS, T};
use crate::scripts::sums::spectra_about_the_sum;
use crate::scripts::Script;

/// Adds the ERL calls to what stands in a script.
pub fn add(mut script: Script) -> Script {
    let mut random = Random::new(15);
    script.erl_reset();
    script.erl_update(&good_call(&mut random, 1, 1, 1));
    let mut walk = Walk::after(script, 2);
    first_moves(&mut walk);
    thresholds(&mut walk, &mut random);
    faults(&mut walk, &mut random);
    for (captures, renders) in CHANNELS {
        random_calls(&mut walk, &mut random, captures, renders);
    }
    walk.script
}

/// The startup count, document 01's bench value and a reset.
fn first_moves(walk: &mut Walk) {
    let silent = flat(&[true], &[2.0 * T], &[0.0]);
    for _ in 0..3 {
        walk.update(&silent);
    }
    walk.reset();
    walk.update(&silent);
    walk.update(&silent);
    walk.start(0);
    walk.update(&flat(&[false, true], &[2.0 * T], &[4e9, 0.0]));
    walk.update(&flat(&[false, false], &[2.0 * T], &[0.0, 0.0]));
    walk.update(&flat(&[true], &[3e7, 3e7], &[0.0]));
}

/// Renders about T, sums about T times 65, and special values.
fn thresholds(walk: &mut Walk, random: &mut Random) {
    walk.start(1);
    for level in beside(T) {
        walk.update(&flat(&[true], &[level], &[0.0]));
    }
    for render in spectra_about_the_sum(random) {
        walk.update(&spread(random, &[true], 1, &render, &[0.0; BANDS]));
    }
    for value in SPECIALS {
        walk.update(&flat(&[true], &[2.0 * T], &[value]));
        walk.update(&flat(&[true], &[value], &[1.0]));
    }
}

/// Each fault alone, a few together, and a good call at the end.
fn faults(walk: &mut Walk, random: &mut Random) {
    walk.start(0);
    let good = good_call(random, 1, 1, 1);
    walk.updates(&singles(&good, &FAULTS));
    for at in 0..VALUES.len() {
        let mut call = good.clone();
        VALUES[at](&mut call);
        LENGTHS[at](&mut call);
        walk.update(&call);
        COUNTS[at](&mut call);
        walk.update(&call);
    }
    walk.update(&good);
}

fn random_calls(walk: &mut Walk, random: &mut Random, captures: usize, renders: usize) {
    walk.start(captures as u32);
    for turn in 0..6 {
        let flags = match turn {
            4 => mask_flags(random.u32(), captures),
            _ => converged(random, captures),
        };
        let render = powers(random, Power::Near);
        let capture = match turn % 2 {
            0 => render.map(|value| value * random.unit()),
            _ => render.map(|_| any_power(random)),
        };
        walk.update(&spread(random, &flags, renders, &render, &capture));
        if turn == 3 {
            walk.reset();
        }
    }
}
