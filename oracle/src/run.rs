//! Runs the input of a program through the published Rust.

use crate::kinds::Groups;
use crate::lines::Lines;
use crate::program::Program;
use crate::trace::listing::{self, Listing};

/// A run over a script or a trace, record by record.
pub struct Run<'a> {
    rest: &'a [u8],
    answers: Answers,
}

/// What gives the lines of a record.
enum Answers {
    Script(Box<Groups>),
    Trace(Box<Listing>),
}

impl<'a> Run<'a> {
    pub fn new(program: Program, input: &'a [u8]) -> Self {
        Self::showing(program, false, input)
    }

    /// A run that shows what the whole ERLE estimator holds, if asked for.
    pub fn showing(program: Program, state: bool, input: &'a [u8]) -> Self {
        let answers = match program {
            Program::Replay => Answers::Script(Box::new(Groups::replay(state))),
            Program::ReplayParts => Answers::Script(Box::new(Groups::replay_parts())),
            Program::TracePrinter => Answers::Trace(Box::default()),
        };
        Self {
            rest: input,
            answers,
        }
    }

    /// The lines before those of the first record.
    pub fn header(&self) -> Lines {
        match self.answers {
            Answers::Script(_) => Lines::default(),
            Answers::Trace(_) => listing::header(),
        }
    }

    /// Runs the next record and gives its bytes; none at the input's end. A bad
    /// record takes all that is left, and the run ends with it.
    pub fn step(&mut self, lines: &mut Lines) -> Option<&'a [u8]> {
        let here = self.rest;
        if here.is_empty() {
            return None;
        }
        let goes_on = match &mut self.answers {
            Answers::Script(groups) => groups.step(&mut self.rest, lines),
            Answers::Trace(listing) => listing.step(&mut self.rest, lines).is_ok(),
        };
        if !goes_on {
            self.rest = &[];
        }
        Some(&here[..here.len() - self.rest.len()])
    }

    /// The lines of all that is left, and how many records gave them.
    pub fn finish(mut self) -> (Lines, usize) {
        let mut lines = self.header();
        let mut records = 0;
        while self.step(&mut lines).is_some() {
            records += 1;
        }
        (lines, records)
    }
}

/// The lines of a whole input, and how many records gave them.
pub fn run(program: Program, input: &[u8]) -> (Lines, usize) {
    Run::new(program, input).finish()
}
