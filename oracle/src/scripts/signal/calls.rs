//! Calls of the signal-dependent estimator, and echoes for them.

use crate::judge::BANDS;
use crate::kinds::echo_call;
use crate::kinds::signal::Call;
use crate::scripts::spectra::Spectrum;

/// The bands at which the subbands begin, and the end of the last.
pub const SUBBANDS: [usize; 7] = [1, 8, 16, 24, 32, 48, BANDS];

/// A call with one value in all bands and channels: render, capture, residual
/// and both averages. The ring is one slot of ones, and nothing answers it.
pub fn flat(flags: &[bool], [render, capture, residual]: [f32; 3], average: f32) -> Call {
    let channels = flags.len();
    let of_all_channels = |value| vec![value; BANDS * channels];
    Call {
        channels: channels as u32,
        slots: 1,
        renders: 1,
        place: 0,
        response_blocks: vec![0; channels],
        flags: flags.to_vec(),
        render: vec![render; BANDS],
        capture: of_all_channels(capture),
        residual: of_all_channels(residual),
        ring: vec![1.0; BANDS],
        averages: [of_all_channels(average), of_all_channels(average)],
        responses: Vec::new(),
    }
}

impl<const AVERAGES: usize> echo_call::Call<AVERAGES> {
    /// The call on a ring of these spectra, slot by slot and render by render.
    pub fn on_ring(self, renders: usize, place: usize, spectra: &[Spectrum]) -> Self {
        Self {
            slots: (spectra.len() / renders) as u32,
            renders: renders as u32,
            place: place as u32,
            ring: spectra.as_flattened().to_vec(),
            ..self
        }
    }

    /// The call on a ring of so many slots of ones.
    pub fn on_ones(self, slots: usize) -> Self {
        self.on_ring(1, 0, &vec![[1.0; BANDS]; slots])
    }

    /// The call with the response blocks of each channel.
    pub fn answering(self, channels: &[Vec<Spectrum>]) -> Self {
        let flattened = channels.iter().map(|blocks| blocks.as_flattened());
        Self {
            response_blocks: channels.iter().map(|blocks| blocks.len() as u32).collect(),
            responses: flattened.collect::<Vec<_>>().concat(),
            ..self
        }
    }

    /// The call with no channel converged: it shows what was learnt.
    pub fn unconverged(self) -> Self {
        Self {
            flags: vec![false; self.flags.len()],
            ..self
        }
    }
}

/// A response of 1 in one block, the last.
pub fn only_block(block: usize) -> Vec<Spectrum> {
    blocks_with(&[(block, 1.0)])
}

/// Responses that have one value in all bands of these blocks, and 0 elsewhere.
pub fn blocks_with(values: &[(usize, f32)]) -> Vec<Spectrum> {
    let last = values.iter().map(|&(block, _)| block).max();
    let mut blocks = vec![[0.0; BANDS]; last.map_or(0, |last| last + 1)];
    for &(block, value) in values {
        blocks[block] = [value; BANDS];
    }
    blocks
}
