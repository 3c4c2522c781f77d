//! Kinds 0101 to 0103: log2, ring places and filter sections.

use crate::audio_processing::aec3::aec3_common::{fast_approx_log2f, BLOCK_SIZE};
use crate::audio_processing::aec3::signal_dependent_erle_estimator::peek_section_boundaries;
use crate::audio_processing::aec3::spectrum_buffer::SpectrumBuffer;
use crate::judge;
use crate::lines::{fields, Answer, Hex, Lines};
use crate::record::{Fields, Malformed, Record};

pub const LOG2: u16 = 0x0101;
pub const RING: u16 = 0x0102;
pub const SECTIONS: u16 = 0x0103;

/// The published rings, one of each accepted size, smallest first.
pub struct Leaves {
    rings: Vec<SpectrumBuffer>,
}

impl Leaves {
    pub fn new() -> Self {
        let rings = judge::RING_SLOTS.map(|slots| SpectrumBuffer::new(slots as usize, 1));
        Self {
            rings: rings.collect(),
        }
    }

    pub fn answer(&self, record: &Record<'_>, lines: &mut Lines) -> Result<(), Malformed> {
        let body = Fields::of(record);
        match record.kind {
            LOG2 => log2(body, lines),
            RING => self.ring(body, lines),
            SECTIONS => sections(body, lines),
            _ => Err(Malformed),
        }
    }

    fn ring(&self, mut body: Fields<'_>, lines: &mut Lines) -> Result<(), Malformed> {
        let (slots, place, offset) = (body.u32()?, body.u32()?, body.i32()?);
        body.end()?;
        let next =
            judge::ring_place(slots, place).map(|()| self.of_size(slots).inc_index(place as usize));
        let at_offset = judge::ring_offset(slots, place, offset).map(|()| {
            self.of_size(slots)
                .offset_index(place as usize, offset as isize)
        });
        lines.push(format_args!(
            "ring next {} offset {}",
            Answer(next),
            Answer(at_offset)
        ));
        Ok(())
    }

    /// The ring of an accepted size.
    fn of_size(&self, slots: u32) -> &SpectrumBuffer {
        &self.rings[(slots - judge::RING_SLOTS.start()) as usize]
    }
}

fn log2(mut body: Fields<'_>, lines: &mut Lines) -> Result<(), Malformed> {
    let x = body.f32()?;
    body.end()?;
    let figure = judge::log2(x).map(|()| Hex(fast_approx_log2f(x)));
    lines.push(format_args!("log2 {}", Answer(figure)));
    Ok(())
}

fn sections(mut body: Fields<'_>, lines: &mut Lines) -> Result<(), Malformed> {
    let (sections, length, headroom) = (body.u32()?, body.u32()?, body.u32()?);
    body.end()?;
    let boundaries = judge::sections(sections, length, headroom).map(|()| {
        let headroom_blocks = headroom as usize / BLOCK_SIZE;
        fields(peek_section_boundaries(
            headroom_blocks,
            length as usize,
            sections as usize,
        ))
    });
    lines.push(format_args!("sections {}", Answer(boundaries)));
    Ok(())
}
