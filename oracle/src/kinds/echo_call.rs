//! One update of an estimator that looks at the echo: that of the whole ERLE
//! estimator, and of the signal-dependent one, to which averages are lent too.

use super::ring::Ring;
use crate::judge::BANDS;
use crate::record::{field_bytes, push_entries, push_sizes, Body, Fields, Malformed};

/// The most response block counts that an update says, whatever its channels.
const MOST_COUNTS: u32 = 16;

/// The counts that an update says, and what it lends: so many lists of averages
/// among the rest.
#[derive(Clone)]
pub struct Call<const AVERAGES: usize> {
    pub channels: u32,
    pub slots: u32,
    pub renders: u32,
    pub place: u32,
    /// How many response blocks each channel has.
    pub response_blocks: Vec<u32>,
    pub flags: Vec<bool>,
    pub render: Vec<f32>,
    pub capture: Vec<f32>,
    pub residual: Vec<f32>,
    pub ring: Vec<f32>,
    pub averages: [Vec<f32>; AVERAGES],
    pub responses: Vec<f32>,
}

impl<const AVERAGES: usize> Call<AVERAGES> {
    /// The lists of numbers in the order in which they are lent.
    pub fn lists(&self) -> Vec<&[f32]> {
        let mut lists = self.lists_before_responses();
        lists.push(&self.responses);
        lists
    }

    /// The lists whose numbers of entries are said.
    fn lists_before_responses(&self) -> Vec<&[f32]> {
        let mut lists = vec![&self.render[..], &self.capture, &self.residual, &self.ring];
        lists.extend(self.averages.iter().map(|list| &list[..]));
        lists
    }

    /// The lists that have a spectrum for each capture channel.
    pub fn lists_of_channels(&self) -> Vec<&[f32]> {
        let averages = self.averages.iter();
        let lists = [&self.capture, &self.residual].into_iter().chain(averages);
        lists.map(|list| &list[..]).collect()
    }

    /// The render, the captures and the residuals of a call that is accepted.
    pub fn spectra(&self) -> [&[[f32; BANDS]]; 3] {
        [&self.render, &self.capture, &self.residual].map(|list| list.as_chunks().0)
    }

    /// The ring of a call that is accepted.
    pub fn ring(&self) -> Ring {
        Ring::new(self.renders as usize, self.ring.as_chunks().0)
    }

    /// The response blocks of each channel of a call that is accepted.
    pub fn split_responses(&self) -> Vec<Vec<[f32; BANDS]>> {
        let (mut blocks, _) = self.responses.as_chunks();
        let mut channels = Vec::new();
        for &count in &self.response_blocks {
            let (channel, rest) = blocks.split_at(count as usize);
            channels.push(channel.to_vec());
            blocks = rest;
        }
        channels
    }

    /// How many response block counts are said.
    fn counts(channels: u32) -> usize {
        channels.min(MOST_COUNTS) as usize
    }
}

impl<const AVERAGES: usize> Body for Call<AVERAGES> {
    fn read(mut body: Fields<'_>) -> Result<Self, Malformed> {
        let [channels, slots, renders, place] = body.array()?;
        let [flags, render, capture, residual, ring] = body.array()?;
        let average_sizes: [u32; AVERAGES] = body.array()?;
        let counts = 0..Self::counts(channels);
        let response_blocks = counts.map(|_| body.u32()).collect::<Result<_, _>>()?;
        let flags = body.flags(flags)?;
        let [render, capture, residual, ring] = body.lists([render, capture, residual, ring])?;
        Ok(Self {
            channels,
            slots,
            renders,
            place,
            response_blocks,
            flags,
            render,
            capture,
            residual,
            ring,
            averages: body.lists(average_sizes)?,
            responses: body.floats_to_the_end()?,
        })
    }

    /// The lists as they are, and as many response block counts as the channels
    /// ask, with zeros for those that are missing.
    fn body(&self) -> Vec<u8> {
        let mut counts = self.response_blocks.clone();
        counts.resize(Self::counts(self.channels), 0);
        let mut body = field_bytes(&[self.channels, self.slots, self.renders, self.place]);
        push_sizes(&mut body, &self.flags, &self.lists_before_responses());
        body.extend(field_bytes(&counts));
        push_entries(&mut body, &self.flags, &self.lists());
        body
    }
}
