//! What the kinds of an estimator that stands alone have in common: start,
//! update and reset.

use super::answer_call;
use crate::judge::{Judged, Refusal};
use crate::lines::Lines;
use crate::record::{Body, Fields, Malformed, Record};

/// A published estimator, and the kinds of the calls to it.
pub trait Estimator: Sized {
    /// The word that its lines begin with.
    const NAME: &'static str;

    const START: u16;
    const UPDATE: u16 = Self::START + 1;
    const RESET: u16 = Self::START + 2;

    type Start: Body;
    type Call: Body;
    /// What a reset says; nothing, mostly.
    type Reset: Body + Default;

    fn judge_start(start: &Self::Start) -> Judged;

    /// A new estimator, for settings that are accepted.
    fn new(start: &Self::Start) -> Self;

    fn judge_update(&self, call: &Self::Call) -> Judged;

    /// One update, for a call that is accepted.
    fn run(&mut self, call: &Self::Call);

    fn reset(&mut self, reset: Self::Reset);

    /// The figures; of a part of the ERLE estimator also what is held beside them.
    fn figures(&self, lines: &mut Lines);

    /// What is held beside the figures, where that is shown only if asked for.
    fn state(&self, _lines: &mut Lines) {}

    /// A new estimator, unless the settings are turned away.
    fn started(start: &Self::Start) -> Result<Self, Refusal> {
        Self::judge_start(start)?;
        Ok(Self::new(start))
    }

    /// Updates so many times, unless the call is turned away.
    fn repeat(&mut self, times: u32, call: &Self::Call) -> Judged {
        self.judge_update(call)?;
        (0..times).for_each(|_| self.run(call));
        Ok(())
    }
}

/// The estimator that stands, if one does.
pub struct Standing<E: Estimator> {
    started: Option<Started<E>>,
    /// Whether what is held is shown after the figures.
    state_shown: bool,
}

/// An estimator and the start that was accepted for it.
pub struct Started<E: Estimator> {
    pub start: E::Start,
    pub estimator: E,
}

impl<E: Estimator> Default for Standing<E> {
    fn default() -> Self {
        Self::new(false)
    }
}

impl<E: Estimator> Standing<E> {
    pub fn new(state_shown: bool) -> Self {
        Self {
            started: None,
            state_shown,
        }
    }

    /// What stands.
    pub fn started(&self) -> Option<&Started<E>> {
        self.started.as_ref()
    }

    pub fn answer(&mut self, record: &Record<'_>, lines: &mut Lines) -> Result<(), Malformed> {
        self.call(record, lines)?;
        self.figures(lines);
        Ok(())
    }

    /// Makes the call of a record, with its answer alone.
    pub fn call(&mut self, record: &Record<'_>, lines: &mut Lines) -> Result<(), Malformed> {
        let body = Fields::of(record);
        match record.kind {
            kind if kind == E::START => self.start(body, lines),
            kind if kind == E::UPDATE => self.update(1, body, lines),
            kind if kind == E::RESET => self.reset(body, lines),
            _ => Err(Malformed),
        }
    }

    fn start(&mut self, body: Fields<'_>, lines: &mut Lines) -> Result<(), Malformed> {
        let start = E::Start::read(body)?;
        match E::started(&start) {
            Ok(estimator) => {
                self.started = Some(Started { start, estimator });
                lines.push(format_args!("{} start", E::NAME));
            }
            Err(refusal) => {
                self.started = None;
                lines.push(format_args!("{} start {refusal}", E::NAME));
            }
        }
        Ok(())
    }

    /// The same update so many times, with one answer.
    pub fn update(
        &mut self,
        times: u32,
        body: Fields<'_>,
        lines: &mut Lines,
    ) -> Result<(), Malformed> {
        let call = E::Call::read(body)?;
        answer_call(E::NAME, "ok", &mut self.started, lines, |started| {
            started.estimator.repeat(times, &call)
        });
        Ok(())
    }

    fn reset(&mut self, body: Fields<'_>, lines: &mut Lines) -> Result<(), Malformed> {
        let reset = E::Reset::read(body)?;
        answer_call(E::NAME, "reset", &mut self.started, lines, |started| {
            started.estimator.reset(reset);
            Ok(())
        });
        Ok(())
    }

    /// The figures of the estimator that stands.
    pub fn figures(&self, lines: &mut Lines) {
        if let Some(Started { estimator, .. }) = &self.started {
            estimator.figures(lines);
            if self.state_shown {
                estimator.state(lines);
            }
        }
    }
}
