//! What the kinds of a part of the ERLE estimator, replayed alone, have beside
//! those of every estimator: a repeat, and settings of one form.

use super::call::Call;
use super::standing::{Estimator, Standing};
use crate::api::config::EchoCanceller3Config;
use crate::lines::Lines;
use crate::record::{field_bytes, Body, Fields, Malformed, Record};
use std::ops::RangeInclusive;

/// How often a repeat may ask for its call; another number is malformed.
pub const TIMES: RangeInclusive<u32> = 1..=65_535;

/// A part of the ERLE estimator that is replayed alone.
pub trait Part: Estimator<Start: Settings, Call = Call> {
    const REPEAT: u16 = Self::START + 3;
}

impl<P: Part> Standing<P> {
    /// Answers a record of a part.
    pub fn answer_part(&mut self, record: &Record<'_>, lines: &mut Lines) -> Result<(), Malformed> {
        if record.kind != P::REPEAT {
            return self.answer(record, lines);
        }
        let (times, body) = repeated(record)?;
        self.update(times, body, lines)?;
        self.figures(lines);
        Ok(())
    }
}

/// How often a repeat asks for its call, and the fields of that.
pub fn repeated<'a>(record: &Record<'a>) -> Result<(u32, Fields<'a>), Malformed> {
    let mut body = Fields::of(record);
    let times = body.u32()?;
    if !TIMES.contains(&times) {
        return Err(Malformed);
    }
    Ok((times, body))
}

/// The settings of a start: three limits, some switches, and the capture
/// channels.
pub trait Settings: Copy {
    /// How many switches there are.
    const SWITCHES: usize;

    /// The switches are the low bits of a number, the first the lowest.
    fn new(limits: [f32; 3], switches: u32, channels: u32) -> Self;

    /// Minimum, max_l and max_h.
    fn limits(&self) -> [f32; 3];

    fn switches(&self) -> u32;

    fn channels(&self) -> u32;

    /// The published configuration with these limits.
    fn config(&self) -> EchoCanceller3Config {
        let mut config = EchoCanceller3Config::default();
        [config.erle.min, config.erle.max_l, config.erle.max_h] = self.limits();
        config
    }

    /// Reads the settings off the front of a body.
    fn read_from(body: &mut Fields<'_>) -> Result<Self, Malformed> {
        let limits = [body.f32()?, body.f32()?, body.f32()?];
        let mut switches = 0;
        for place in 0..Self::SWITCHES {
            switches |= (body.flag()? as u32) << place;
        }
        Ok(Self::new(limits, switches, body.u32()?))
    }

    /// The fields that `read_from` reads.
    fn fields(&self) -> Vec<u32> {
        let mut fields = self.limits().map(f32::to_bits).to_vec();
        fields.extend((0..Self::SWITCHES).map(|place| self.switches() >> place & 1));
        fields.push(self.channels());
        fields
    }
}

impl<S: Settings> Body for S {
    fn read(mut body: Fields<'_>) -> Result<Self, Malformed> {
        let settings = Self::read_from(&mut body)?;
        body.end()?;
        Ok(settings)
    }

    fn body(&self) -> Vec<u8> {
        field_bytes(&self.fields())
    }
}
