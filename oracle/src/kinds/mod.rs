//! The kinds of records, one module for each group of them.

pub mod call;
pub mod echo_call;
pub mod erl;
pub mod erle;
pub mod fullband;
pub mod leaves;
pub mod part;
pub mod ring;
pub mod signal;
pub mod standing;
pub mod subband;

use crate::judge::Judged;
use crate::lines::{Answer, Lines};
use crate::record::{take_record, Malformed, Record};
use erl::Erl;
use erle::Erle;
use fullband::FullBand;
use leaves::Leaves;
use part::Part;
use signal::Signal;
use standing::{Estimator, Standing};
use subband::Subband;

/// What the groups of kinds of a program keep from record to record.
pub enum Groups {
    Replay {
        leaves: Leaves,
        erl: Erl,
        erle: Box<Standing<Erle>>,
        signal: Box<Standing<Signal>>,
    },
    ReplayParts {
        subband: Standing<Subband>,
        fullband: Standing<FullBand>,
    },
}

impl Groups {
    /// Those of `replay`. The whole ERLE estimator's state is shown if asked for.
    pub fn replay(state_shown: bool) -> Self {
        Self::Replay {
            leaves: Leaves::new(),
            erl: Erl::default(),
            erle: Box::new(Standing::new(state_shown)),
            signal: Box::default(),
        }
    }

    /// Those of `replay_parts`.
    pub fn replay_parts() -> Self {
        Self::ReplayParts {
            subband: Standing::default(),
            fullband: Standing::default(),
        }
    }

    /// Takes the first record off a script and answers it. Tells whether the run
    /// goes on.
    pub fn step(&mut self, script: &mut &[u8], lines: &mut Lines) -> bool {
        let record = take_record(script);
        let answered = record
            .and_then(|record| self.answer(&record, lines))
            .is_ok();
        if !answered {
            lines.push(format_args!("bad"));
        }
        answered
    }

    /// Answers one record. A malformed record prints nothing here.
    pub fn answer(&mut self, record: &Record<'_>, lines: &mut Lines) -> Result<(), Malformed> {
        match self {
            Self::Replay {
                leaves,
                erl,
                erle,
                signal,
            } => match record.kind {
                leaves::LOG2 | leaves::RING | leaves::SECTIONS => leaves.answer(record, lines),
                Erle::START..=Erle::RESET => erle.answer(record, lines),
                Signal::START..=Signal::RESET => signal.answer(record, lines),
                _ => erl.answer(record, lines),
            },
            Self::ReplayParts { subband, fullband } => match record.kind {
                FullBand::START..=FullBand::REPEAT => fullband.answer_part(record, lines),
                _ => subband.answer_part(record, lines),
            },
        }
    }
}

/// The line of a call to the estimator that stands: the word for it done, its
/// refusal, or that none stands.
fn answer_call<T>(
    name: &str,
    done: &str,
    estimator: &mut Option<T>,
    lines: &mut Lines,
    call: impl FnOnce(&mut T) -> Judged,
) {
    match estimator {
        Some(estimator) => {
            let answer = Answer(call(estimator).map(|()| done));
            lines.push(format_args!("{name} {answer}"));
        }
        None => lines.push(format_args!("{name} none")),
    }
}
