//! The published ring of render spectra, with the buffers that stand beside it.

use crate::audio_processing::aec3::block_buffer::BlockBuffer;
use crate::audio_processing::aec3::fft_buffer::FftBuffer;
use crate::audio_processing::aec3::render_buffer::RenderBuffer;
use crate::audio_processing::aec3::spectrum_buffer::SpectrumBuffer;
use crate::judge::BANDS;

pub struct Ring {
    blocks: BlockBuffer,
    spectra: SpectrumBuffer,
    transforms: FftBuffer,
}

impl Ring {
    /// A ring of so many renders in each slot, slot by slot and render by render.
    pub fn new(renders: usize, spectra: &[[f32; BANDS]]) -> Self {
        let slots = spectra.len() / renders;
        let mut ring = SpectrumBuffer::new(slots, renders);
        for (slot, spectra) in ring.buffer.iter_mut().zip(spectra.chunks_exact(renders)) {
            slot.copy_from_slice(spectra);
        }
        Self {
            blocks: BlockBuffer::new(slots, 1, renders),
            spectra: ring,
            transforms: FftBuffer::new(slots, renders),
        }
    }

    /// The ring read from a place.
    pub fn at(&mut self, place: usize) -> RenderBuffer<'_> {
        (self.spectra.read, self.transforms.read) = (place, place);
        RenderBuffer::new(&self.blocks, &self.spectra, &self.transforms, true)
    }
}
