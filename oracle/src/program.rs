//! The programs of the port whose lines are compared.

#[derive(Debug, Clone, Copy, PartialEq, Eq)]
pub enum Program {
    /// Leaves, ERL, the whole ERLE estimator and the signal-dependent one.
    Replay,
    /// The parts of the ERLE estimator, each alone.
    ReplayParts,
    /// The listing of a trace.
    TracePrinter,
}

impl Program {
    pub const ALL: [Self; 3] = [Self::Replay, Self::ReplayParts, Self::TracePrinter];

    pub fn name(self) -> &'static str {
        match self {
            Self::Replay => "replay",
            Self::ReplayParts => "replay_parts",
            Self::TracePrinter => "trace_printer",
        }
    }

    /// What its input is called.
    pub fn input(self) -> &'static str {
        match self {
            Self::Replay | Self::ReplayParts => "script",
            Self::TracePrinter => "trace",
        }
    }

    pub fn named(name: &str) -> Option<Self> {
        Self::ALL.into_iter().find(|program| program.name() == name)
    }
}
