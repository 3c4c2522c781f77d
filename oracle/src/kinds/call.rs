//! One update of a part of the ERLE estimator.

use crate::judge::BANDS;
use crate::record::{push_lists, Body, Fields, Malformed};

/// The channel count that an update says, and what it lends.
#[derive(Clone)]
pub struct Call {
    pub channels: u32,
    pub flags: Vec<bool>,
    pub render: Vec<f32>,
    pub capture: Vec<f32>,
    pub residual: Vec<f32>,
}

impl Call {
    /// The render, the captures and the residuals.
    pub fn spectra(&self) -> [&[[f32; BANDS]]; 3] {
        [&self.render, &self.capture, &self.residual].map(|list| list.as_chunks().0)
    }
}

impl Body for Call {
    fn read(mut body: Fields<'_>) -> Result<Self, Malformed> {
        let channels = body.u32()?;
        let (flags, render) = (body.u32()?, body.u32()?);
        let (capture, residual) = (body.u32()?, body.u32()?);
        let call = Self {
            channels,
            flags: body.flags(flags)?,
            render: body.floats(render)?,
            capture: body.floats(capture)?,
            residual: body.floats(residual)?,
        };
        body.end()?;
        Ok(call)
    }

    fn body(&self) -> Vec<u8> {
        let mut body = self.channels.to_le_bytes().to_vec();
        push_lists(
            &mut body,
            &self.flags,
            &[&self.render, &self.capture, &self.residual],
        );
        body
    }
}
