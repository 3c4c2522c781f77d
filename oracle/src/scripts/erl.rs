//! Scripts of the ERL estimator.

pub mod damaged;
mod edges;
mod long;
mod refused;
pub mod sample;
mod stretches;

use super::random::Random;
use super::spectra::{any_power, Spectrum};
use super::{Maker, Script};
use crate::audio_processing::aec3::erl_estimator::ErlEstimator;
use crate::judge::BANDS;
use crate::kinds::erl::Call;

/// Every choice of capture and render channels.
pub const CHANNELS: [(usize, usize); 8] = [
    (1, 1),
    (2, 1),
    (3, 1),
    (4, 1),
    (1, 2),
    (2, 2),
    (3, 2),
    (4, 2),
];

/// Startup counts; no script is long enough for the last.
const STARTUPS: [u32; 6] = [0, 1, 2, 5, 40, u32::MAX];

/// The least ERL.
const LEAST_ERL: f32 = 0.01;

/// How many scripts of random stretches there are.
const STRETCHES: u64 = 8;

pub fn scripts() -> Vec<Maker> {
    let mut makers: Vec<Maker> = vec![
        Box::new(refused::script),
        Box::new(edges::edges),
        Box::new(edges::mixtures),
    ];
    for place in 0..CHANNELS.len() {
        makers.push(Box::new(move || long::script(place)));
    }
    let first_seed = makers.len() as u64;
    for seed in first_seed..first_seed + STRETCHES {
        makers.push(Box::new(move || stretches::script(seed)));
    }
    makers
}

/// A script that grows beside the published estimator, so that a call can aim
/// at the figures that it finds.
struct Walk {
    script: Script,
    estimator: ErlEstimator,
}

impl Walk {
    fn new(startup: u32) -> Self {
        Self::after(Script::default(), startup)
    }

    /// Starts behind what stands in a script.
    fn after(mut script: Script, startup: u32) -> Self {
        script.erl_start(startup);
        Self {
            script,
            estimator: ErlEstimator::new(startup as usize),
        }
    }

    fn start(&mut self, startup: u32) {
        self.script.erl_start(startup);
        self.estimator = ErlEstimator::new(startup as usize);
    }

    /// Adds a call; one that is turned away changes nothing.
    fn update(&mut self, call: &Call) {
        self.script.erl_update(call);
        call.update(&mut self.estimator).ok();
    }

    fn updates(&mut self, calls: &[Call]) {
        calls.iter().for_each(|call| self.update(call));
    }

    fn reset(&mut self) {
        self.script.erl_reset();
        self.estimator.reset();
    }
}

/// A call of these channels.
pub fn call(flags: &[bool], renders: &[Spectrum], captures: &[Spectrum]) -> Call {
    Call {
        captures: captures.len() as u32,
        renders: renders.len() as u32,
        flags: flags.to_vec(),
        render: renders.as_flattened().to_vec(),
        capture: captures.as_flattened().to_vec(),
    }
}

/// A call of channels that have one value in all bands.
pub fn flat(flags: &[bool], renders: &[f32], captures: &[f32]) -> Call {
    let spectra = |values: &[f32]| values.iter().map(|&v| [v; BANDS]).collect::<Vec<_>>();
    call(flags, &spectra(renders), &spectra(captures))
}

/// A call whose renders have this per-band greatest, and its converged captures
/// that one; which channel has it changes from band to band. The captures that
/// are not converged have any values.
fn spread(
    random: &mut Random,
    flags: &[bool],
    renders: usize,
    render: &Spectrum,
    capture: &Spectrum,
) -> Call {
    let converged = flags.iter().filter(|&&flag| flag).count();
    let render = share(random, renders, render);
    let mut shares = share(random, converged, capture).into_iter();
    let captures: Vec<Spectrum> = flags
        .iter()
        .map(|&flag| match flag {
            true => shares.next().expect("a share for each converged channel"),
            false => std::array::from_fn(|_| any_power(random)),
        })
        .collect();
    call(flags, &render, &captures)
}

/// So many spectra with this per-band greatest.
fn share(random: &mut Random, channels: usize, greatest: &Spectrum) -> Vec<Spectrum> {
    let mut shares = vec![[0.0; BANDS]; channels];
    for (band, &value) in greatest.iter().enumerate() {
        let holder = random.below(channels.max(1) as u32) as usize;
        for (channel, share) in shares.iter_mut().enumerate() {
            share[band] = match channel == holder {
                true => value,
                false => value * random.one_of(&[0.0, 0.25, 0.99, 1.0]),
            };
        }
    }
    shares
}
