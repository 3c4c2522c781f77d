//! Scripts of the subband estimator.

mod edges;
mod phases;
mod rests;
pub mod sample;
pub mod stretches;

use super::part::{damaged, makers, refused, starts, SETTINGS};
use super::spectra::Power;
use super::{Maker, Script};
use crate::kinds::part::Settings;
use crate::kinds::subband::{Start, Subband};

type Walk = super::walk::Walk<Subband>;

/// How many scripts of random stretches there are.
const STRETCHES: u64 = 88;

pub fn scripts() -> Vec<Maker> {
    let for_channels: [fn(usize) -> Script; 6] = [
        |channels| refused::script::<Subband>(channels, Power::Near),
        edges::values,
        edges::limits,
        phases::script,
        rests::gaps,
        rests::others,
    ];
    makers(
        starts::script::<Subband>,
        &for_channels,
        0..STRETCHES,
        stretches::script,
    )
}

/// Small scripts of bad input.
pub fn damaged_scripts() -> Vec<Script> {
    damaged::scripts::<Subband>(&[
        0x0000, 0x0001, 0x0002, 0x0003, 0x0030, 0x0101, 0x0110, 0x0111, 0x0112, 0x012F, 0x0134,
        0x013F, 0x0140, 0x0230, 0x3001, 0x8130, 0xFFFF,
    ])
}

/// A start with these settings.
fn start(limits: [f32; 3], onset: bool, channels: usize) -> Start {
    Start::new(limits, onset as u32, channels as u32)
}

/// The start of document 01's example.
pub fn example_start() -> Start {
    start(SETTINGS[0], true, 1)
}
