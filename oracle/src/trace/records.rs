//! The records of a trace: settings, blocks and resets.

use crate::judge::{refuse_if, Judged, Refusal, BANDS};
use crate::kinds::call::Call;
use crate::kinds::erle::{DelayChanged, Start};
use crate::kinds::part::Settings as _;
use crate::kinds::{signal, subband};
use std::ops::RangeInclusive;

pub const SETTINGS: u16 = 0x0001;
pub const BLOCK: u16 = 0x0002;
pub const RESET: u16 = 0x0003;

/// The lengths of records that are read; another is 10.
pub const LENGTHS: RangeInclusive<u32> = 2..=65_532;

/// The bytes of a spectrum.
pub const SPECTRUM: usize = 4 * BANDS;

/// What a settings record says.
#[derive(Clone, Copy)]
pub struct Settings {
    /// Minimum, max_l and max_h.
    pub limits: [f32; 3],
    pub channels: u8,
    pub onset: bool,
    pub startup: u32,
    /// The printed band.
    pub band: u8,
}

impl Settings {
    /// 12: a body of another length. 13: an onset flag above 1, or a printed band
    /// above 64.
    pub fn read(body: &[u8]) -> Result<Self, Refusal> {
        let body: &[u8; 19] = body.try_into().map_err(|_| Refusal(12))?;
        let [words @ .., channels, onset, s0, s1, s2, s3, band] = *body;
        refuse_if(onset > 1 || band as usize >= BANDS, 13)?;
        let mut limits = [0.0; 3];
        read_floats(&words, &mut limits);
        Ok(Self {
            limits,
            channels,
            onset: onset == 1,
            startup: u32::from_le_bytes([s0, s1, s2, s3]),
            band,
        })
    }

    /// The body that `read` reads.
    pub fn body(&self) -> Vec<u8> {
        let mut body = Vec::new();
        push_floats(&mut body, &self.limits);
        body.extend([self.channels, self.onset as u8]);
        body.extend(self.startup.to_le_bytes());
        body.push(self.band);
        body
    }

    /// The start that the printer asks for: one section, with both clamps.
    pub fn start(&self) -> Start {
        let channels = self.channels.into();
        Start {
            startup: self.startup,
            signal: signal::Start {
                settings: subband::Start::new(self.limits, self.onset.into(), channels),
                sections: 1,
                length_blocks: 1,
                headroom_samples: 0,
            },
            to_zero: true,
            to_one: true,
        }
    }
}

/// Reads a block into a call that has as many channels as were set. 12: a body of
/// another length than they ask. 13: a flag byte above 1.
pub fn read_block(body: &[u8], call: &mut Call) -> Judged {
    let channels = call.flags.len();
    refuse_if(body.len() != channels + SPECTRUM * (1 + 2 * channels), 12)?;
    let (flags, powers) = body.split_at(channels);
    refuse_if(flags.iter().any(|&byte| byte > 1), 13)?;
    for (flag, byte) in call.flags.iter_mut().zip(flags) {
        *flag = *byte == 1;
    }
    let (render, powers) = powers.split_at(SPECTRUM);
    read_floats(render, &mut call.render);
    let captures = call.capture.chunks_exact_mut(BANDS);
    let residuals = call.residual.chunks_exact_mut(BANDS);
    for ((capture, residual), powers) in captures.zip(residuals).zip(powers.chunks(2 * SPECTRUM)) {
        let (first, second) = powers.split_at(SPECTRUM);
        read_floats(first, capture);
        read_floats(second, residual);
    }
    Ok(())
}

/// The body that `read_block` reads.
pub fn block_body(call: &Call) -> Vec<u8> {
    let mut body: Vec<u8> = call.flags.iter().map(|&flag| flag as u8).collect();
    push_floats(&mut body, &call.render);
    let [_, captures, residuals] = call.spectra();
    for (capture, residual) in captures.iter().zip(residuals) {
        push_floats(&mut body, capture);
        push_floats(&mut body, residual);
    }
    body
}

/// What a reset says. 12: a body of another length. 13: a flag byte above 1.
pub fn read_reset(body: &[u8]) -> Result<DelayChanged, Refusal> {
    let &[flag] = body else {
        return Err(Refusal(12));
    };
    refuse_if(flag > 1, 13)?;
    Ok(DelayChanged(flag == 1))
}

fn read_floats(bytes: &[u8], floats: &mut [f32]) {
    let (words, _) = bytes.as_chunks();
    for (float, &word) in floats.iter_mut().zip(words) {
        *float = f32::from_le_bytes(word);
    }
}

fn push_floats(body: &mut Vec<u8>, floats: &[f32]) {
    body.extend(floats.iter().flat_map(|float| float.to_le_bytes()));
}
