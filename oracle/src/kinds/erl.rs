//! Kinds 0110 to 0112: the ERL estimator.

use crate::audio_processing::aec3::erl_estimator::ErlEstimator;
use crate::judge::{self, Judged};
use crate::kinds::answer_call;
use crate::lines::Lines;
use crate::record::{push_lists, Body, Fields, Malformed, Record};

pub const START: u16 = 0x0110;
pub const UPDATE: u16 = 0x0111;
pub const RESET: u16 = 0x0112;

/// The estimator that stands, if one does.
#[derive(Default)]
pub struct Erl {
    estimator: Option<ErlEstimator>,
}

impl Erl {
    pub fn answer(&mut self, record: &Record<'_>, lines: &mut Lines) -> Result<(), Malformed> {
        let body = Fields::of(record);
        match record.kind {
            START => self.start(body, lines)?,
            UPDATE => self.update(body, lines)?,
            RESET => self.reset(body, lines)?,
            _ => return Err(Malformed),
        }
        self.figures(lines);
        Ok(())
    }

    fn start(&mut self, mut body: Fields<'_>, lines: &mut Lines) -> Result<(), Malformed> {
        let startup = body.u32()?;
        body.end()?;
        self.estimator = Some(ErlEstimator::new(startup as usize));
        lines.push(format_args!("erl start"));
        Ok(())
    }

    fn update(&mut self, body: Fields<'_>, lines: &mut Lines) -> Result<(), Malformed> {
        let call = Call::read(body)?;
        answer_call("erl", "ok", &mut self.estimator, lines, |e| call.update(e));
        Ok(())
    }

    fn reset(&mut self, body: Fields<'_>, lines: &mut Lines) -> Result<(), Malformed> {
        body.end()?;
        answer_call("erl", "reset", &mut self.estimator, lines, |estimator| {
            estimator.reset();
            Ok(())
        });
        Ok(())
    }

    /// The figures of the estimator that stands.
    fn figures(&self, lines: &mut Lines) {
        if let Some(estimator) = &self.estimator {
            let mut figures = estimator.erl().to_vec();
            figures.push(estimator.erl_time_domain());
            lines.push_hex(format_args!("erl"), &figures);
        }
    }
}

/// One update: the counts that it says, and what it lends.
#[derive(Clone)]
pub struct Call {
    pub captures: u32,
    pub renders: u32,
    pub flags: Vec<bool>,
    pub render: Vec<f32>,
    pub capture: Vec<f32>,
}

impl Body for Call {
    fn read(mut body: Fields<'_>) -> Result<Self, Malformed> {
        let (captures, renders) = (body.u32()?, body.u32()?);
        let (flags, render, capture) = (body.u32()?, body.u32()?, body.u32()?);
        let call = Self {
            captures,
            renders,
            flags: body.flags(flags)?,
            render: body.floats(render)?,
            capture: body.floats(capture)?,
        };
        body.end()?;
        Ok(call)
    }

    fn body(&self) -> Vec<u8> {
        let mut body = self.captures.to_le_bytes().to_vec();
        body.extend(self.renders.to_le_bytes());
        push_lists(&mut body, &self.flags, &[&self.render, &self.capture]);
        body
    }
}

impl Call {
    /// Updates an estimator, unless the call is turned away.
    pub fn update(&self, estimator: &mut ErlEstimator) -> Judged {
        judge::erl_update(self)?;
        let (render, _) = self.render.as_chunks();
        let (capture, _) = self.capture.as_chunks();
        estimator.update(&self.flags, render, capture);
        Ok(())
    }
}
