//! Kinds 0140 to 0142: the signal-dependent estimator.

use super::echo_call;
use super::part::Settings;
use super::standing::Estimator;
use super::subband;
use crate::api::config::EchoCanceller3Config;
use crate::audio_processing::aec3::signal_dependent_erle_estimator::SignalDependentErleEstimator;
use crate::judge::{self, Judged};
use crate::lines::Lines;
use crate::record::{field_bytes, Body, Fields, Malformed};

/// One update, with the averages of two streams.
pub type Call = echo_call::Call<2>;

/// The places of the streams among the averages.
pub const PLAIN: usize = 0;
pub const COMPENSATED: usize = 1;

/// The published estimator, and the settings that its calls are judged by.
pub struct Signal {
    pub start: Start,
    pub estimator: SignalDependentErleEstimator,
}

impl Estimator for Signal {
    const NAME: &'static str = "signal";
    const START: u16 = 0x0140;
    type Start = Start;
    type Call = Call;
    type Reset = ();

    fn judge_start(start: &Start) -> Judged {
        judge::signal_start(start)
    }

    fn new(start: &Start) -> Self {
        let channels = start.settings.channels as usize;
        Self {
            start: *start,
            estimator: SignalDependentErleEstimator::new(&start.config(), channels),
        }
    }

    fn judge_update(&self, call: &Call) -> Judged {
        judge::signal_update(call, &self.start)
    }

    fn run(&mut self, call: &Call) {
        let [render, captures, residuals] = call.spectra();
        let [average, compensated] = call.averages.each_ref().map(|list| list.as_chunks().0);
        self.estimator.update(
            &call.ring().at(call.place as usize),
            &call.split_responses(),
            &render[0],
            captures,
            residuals,
            average,
            compensated,
            &call.flags,
        );
    }

    fn reset(&mut self, (): ()) {
        self.estimator.reset();
    }

    fn figures(&self, lines: &mut Lines) {
        let streams = self
            .estimator
            .erle(false)
            .iter()
            .zip(self.estimator.erle(true));
        for (c, (plain, compensated)) in streams.enumerate() {
            lines.push_hex(format_args!("sigplain {c}"), plain);
            lines.push_hex(format_args!("sigcomp {c}"), compensated);
        }
    }
}

/// The settings of a start.
#[derive(Clone, Copy)]
pub struct Start {
    /// Those that the subband estimator has too.
    pub settings: subband::Start,
    pub sections: u32,
    pub length_blocks: u32,
    pub headroom_samples: u32,
}

impl Start {
    /// The published configuration with these settings.
    pub fn config(&self) -> EchoCanceller3Config {
        let mut config = self.settings.config();
        config.erle.onset_detection = self.settings.onset;
        config.erle.num_sections = self.sections as usize;
        config.filter.main.length_blocks = self.length_blocks as usize;
        config.delay.delay_headroom_samples = self.headroom_samples as usize;
        config
    }

    /// Reads the settings off the front of a body.
    pub fn read_from(body: &mut Fields<'_>) -> Result<Self, Malformed> {
        Ok(Self {
            settings: subband::Start::read_from(body)?,
            sections: body.u32()?,
            length_blocks: body.u32()?,
            headroom_samples: body.u32()?,
        })
    }

    /// The fields that `read_from` reads.
    pub fn fields(&self) -> Vec<u32> {
        let mut fields = self.settings.fields();
        fields.extend([self.sections, self.length_blocks, self.headroom_samples]);
        fields
    }
}

impl Body for Start {
    fn read(mut body: Fields<'_>) -> Result<Self, Malformed> {
        let start = Self::read_from(&mut body)?;
        body.end()?;
        Ok(start)
    }

    fn body(&self) -> Vec<u8> {
        field_bytes(&self.fields())
    }
}
