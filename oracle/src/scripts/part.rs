//! What the scripts of the parts of the ERLE estimator share.

pub mod damaged;
pub mod refused;
pub mod starts;

use super::flags::Flags;
use super::random::Random;
use super::spectra::Spectrum;
use super::walk::Walk;
use super::{Maker, Script};
use crate::judge::{BANDS, CAPTURE_CHANNELS, GREATEST_ERLE, GREATEST_VALUE};
use crate::kinds::call::Call;
use crate::kinds::part::{Part, Settings};

/// The blocks that give a new ratio.
pub const POINTS: usize = 6;

/// One step above the least minimum.
const ABOVE_ONE: f32 = 1.0_f32.next_up();

/// Minimum, max_l and max_h at their limits, equal and apart.
pub const SETTINGS: [[f32; 3]; 10] = [
    [1.0, 4.0, 1.5],
    [1.0, GREATEST_ERLE, GREATEST_ERLE],
    [1.0, 1.0, 1.0],
    [1.0, 1.0, GREATEST_ERLE],
    [1.0, GREATEST_ERLE, 1.0],
    [GREATEST_ERLE, GREATEST_ERLE, GREATEST_ERLE],
    [ABOVE_ONE, ABOVE_ONE.next_up(), ABOVE_ONE],
    [2.5, 8.0, 30.0],
    [
        GREATEST_ERLE.next_down(),
        GREATEST_ERLE,
        GREATEST_ERLE.next_down(),
    ],
    [3.0, 3.0, 7.0],
];

/// The makers of a part's scripts: the first, one of each sort for each number of
/// channels, and so many of random stretches.
pub fn makers(
    first: fn() -> Script,
    for_channels: &[fn(usize) -> Script],
    stretches: std::ops::Range<u64>,
    stretch: fn(u64) -> Script,
) -> Vec<Maker> {
    let mut makers: Vec<Maker> = vec![Box::new(first)];
    makers.extend(for_each_number_of_channels(for_channels));
    for seed in stretches {
        makers.push(Box::new(move || stretch(seed)));
    }
    makers
}

/// The makers of these scripts, of each sort one for each number of channels.
pub fn for_each_number_of_channels(scripts: &[fn(usize) -> Script]) -> Vec<Maker> {
    let mut makers: Vec<Maker> = Vec::new();
    for &script in scripts {
        for channels in CAPTURE_CHANNELS {
            makers.push(Box::new(move || script(channels as usize)));
        }
    }
    makers
}

impl<P: Part> Walk<P> {
    /// Adds as many updates in one record, with the lines of the last.
    pub fn repeat(&mut self, times: u32, call: &Call) {
        self.script.repeat::<P>(times, call);
        self.run(times, call);
    }

    /// Only the flagged channels for a while, and then all for so many blocks,
    /// which leaves them at different points; a reset brings them together.
    pub fn some_then_all(
        &mut self,
        random: &mut Random,
        flags: &[bool],
        together: usize,
        make: fn(&mut Random, &[bool]) -> Call,
    ) {
        for _ in 0..2 {
            for _ in 0..POINTS + 2 {
                self.update(&make(random, flags));
            }
            for _ in 0..together {
                self.update(&make(random, &vec![true; flags.len()]));
            }
            self.reset();
        }
    }

    /// So many blocks in which each channel converges as it pleases.
    pub fn mixed(
        &mut self,
        random: &mut Random,
        channels: usize,
        blocks: u32,
        make: fn(&mut Random, &[bool]) -> Call,
    ) {
        for _ in 0..blocks {
            let flags = Flags::Any.draw(random, channels);
            self.update(&make(random, &flags));
        }
    }
}

/// A call of these channels.
pub fn call(
    flags: &[bool],
    render: &Spectrum,
    captures: &[Spectrum],
    residuals: &[Spectrum],
) -> Call {
    Call {
        channels: flags.len() as u32,
        flags: flags.to_vec(),
        render: render.to_vec(),
        capture: captures.as_flattened().to_vec(),
        residual: residuals.as_flattened().to_vec(),
    }
}

/// A call with one value in all bands and channels.
pub fn flat(flags: &[bool], render: f32, capture: f32, residual: f32) -> Call {
    same(
        flags,
        &[render; BANDS],
        &[capture; BANDS],
        &[residual; BANDS],
    )
}

/// A call whose channels have one capture and one residual.
pub fn same(flags: &[bool], render: &Spectrum, capture: &Spectrum, residual: &Spectrum) -> Call {
    let channels = flags.len();
    call(
        flags,
        render,
        &vec![*capture; channels],
        &vec![*residual; channels],
    )
}

/// A call with one value in all bands, all channels converged.
pub fn converged(channels: usize, render: f32, capture: f32, residual: f32) -> Call {
    flat(&vec![true; channels], render, capture, residual)
}

/// A call in which no channel is converged.
pub fn quiet(channels: usize) -> Call {
    flat(&vec![false; channels], 0.0, 0.0, 0.0)
}

/// A converged call whose ratio is infinite.
pub fn infinite(channels: usize, render: f32) -> Call {
    converged(channels, render, GREATEST_VALUE, f32::from_bits(1))
}

/// Minimum, max_l and max_h that are accepted.
pub fn draw_limits(random: &mut Random) -> [f32; 3] {
    match random.below(2) {
        0 => random.one_of(&SETTINGS),
        _ => {
            let min = 1.0 + 4.0 * random.unit();
            let mut maximum = || {
                let exponent = random.below(17) as i32;
                (min * random.octave(exponent)).min(GREATEST_ERLE)
            };
            [min, maximum(), maximum()]
        }
    }
}

/// A start that is turned away, a call with none standing, and the start again.
pub fn refused_start<P: Part>(random: &mut Random, walk: &mut Walk<P>, start: &P::Start) {
    let mut channels = start.channels();
    let [mut min, mut max_l, mut max_h] = start.limits();
    match random.below(4) {
        0 => channels = random.one_of(&[0, 5, u32::MAX]),
        1 => max_l = random.one_of(&[f32::NAN, min.next_down()]),
        2 => max_h = random.one_of(&[f32::INFINITY, min.next_down()]),
        _ => min = random.one_of(&[f32::NAN, 1.0_f32.next_down(), -1.0]),
    }
    let refused = P::Start::new([min, max_l, max_h], start.switches(), channels);
    walk.start(&refused);
    walk.update(&quiet(start.channels() as usize));
    walk.start(start);
}
