//! Scripts made by name, the same on every run.

mod damage;
mod damaged;
pub mod erl;
pub mod erle;
mod faults;
pub mod flags;
pub mod fullband;
mod leaves;
pub mod part;
mod parts_sample;
pub mod random;
mod sample;
pub mod signal;
pub mod spectra;
pub mod subband;
pub mod sums;
pub mod trace;
mod walk;

use crate::kinds;
use crate::kinds::call::Call;
use crate::kinds::part::Part;
use crate::kinds::standing::Estimator;
use crate::program::Program;
use crate::record::{field_bytes, Body};

/// Makes a script.
pub type Maker = Box<dyn FnOnce() -> Script>;

/// A name under which scripts are made, all for one program.
pub struct Name {
    pub name: &'static str,
    pub program: Program,
    /// Whether the program is asked to show what the whole ERLE estimator holds.
    pub state: bool,
    /// Whether the program gets its input in pieces of many sizes.
    pub pieces: bool,
    make: fn() -> Vec<Maker>,
}

impl Name {
    const fn new(name: &'static str, program: Program, make: fn() -> Vec<Maker>) -> Self {
        Self {
            name,
            program,
            state: false,
            pieces: false,
            make,
        }
    }

    /// The same name, for a program that gets its input in pieces.
    const fn in_pieces(self) -> Self {
        Self {
            pieces: true,
            ..self
        }
    }

    /// The same name, for a program that is asked to show inner state.
    const fn with_state(self) -> Self {
        Self {
            state: true,
            ..self
        }
    }

    /// The scripts of the name. Large ones are made only when they are asked
    /// for.
    pub fn scripts(&self) -> Vec<Maker> {
        (self.make)()
    }

    /// What one of its scripts is called, by its number from 1, and the words that
    /// make it.
    pub fn input(&self, number: usize) -> String {
        let (input, name) = (self.program.input(), self.name);
        format!("{input} {number} (oracle generate {name} {number})")
    }
}

pub const NAMES: [Name; 20] = [
    Name::new("log2", Program::Replay, || vec![Box::new(leaves::log2)]),
    Name::new("ring", Program::Replay, || vec![Box::new(leaves::ring)]),
    Name::new("sections", Program::Replay, || {
        vec![Box::new(leaves::sections)]
    }),
    Name::new("erl", Program::Replay, erl::scripts),
    Name::new("damaged", Program::Replay, || made(damaged::scripts())),
    Name::new("erle", Program::Replay, erle::scripts).with_state(),
    Name::new("damaged_erle", Program::Replay, || {
        made(erle::damaged_scripts())
    }),
    Name::new("signal", Program::Replay, signal::scripts),
    Name::new("damaged_signal", Program::Replay, || {
        made(signal::damaged_scripts())
    }),
    Name::new("subband", Program::ReplayParts, subband::scripts),
    Name::new("damaged_subband", Program::ReplayParts, || {
        made(subband::damaged_scripts())
    }),
    Name::new("fullband", Program::ReplayParts, fullband::scripts),
    Name::new("damaged_fullband", Program::ReplayParts, || {
        made(fullband::damaged_scripts())
    }),
    Name::new("trace_sample", Program::TracePrinter, || {
        vec![Box::new(trace::sample)]
    }),
    Name::new("trace_shown", Program::TracePrinter, || {
        vec![Box::new(trace::shown)]
    }),
    Name::new("trace_longer", Program::TracePrinter, trace::longer),
    Name::new("trace_random", Program::TracePrinter, trace::random),
    Name::new("trace_cuts", Program::TracePrinter, trace::cuts),
    Name::new("trace_damaged", Program::TracePrinter, || {
        made(trace::damaged_traces())
    }),
    Name::new("trace_pieces", Program::TracePrinter, trace::in_pieces).in_pieces(),
];

pub fn named(name: &str) -> Option<&'static Name> {
    NAMES.iter().find(|listed| listed.name == name)
}

/// Small scripts, made already.
fn made(scripts: Vec<Script>) -> Vec<Maker> {
    let maker = |script| -> Maker { Box::new(move || script) };
    scripts.into_iter().map(maker).collect()
}

/// The input of a program's stored sample.
pub fn stored_sample(program: Program) -> Script {
    match program {
        Program::Replay => sample::script(),
        Program::ReplayParts => parts_sample::script(),
        Program::TracePrinter => trace::stored::cut_off(),
    }
}

/// A script as it grows.
#[derive(Default, Clone)]
pub struct Script {
    pub bytes: Vec<u8>,
}

impl Script {
    pub fn log2(&mut self, pattern: u32) {
        self.record(kinds::leaves::LOG2, &[pattern]);
    }

    pub fn ring(&mut self, slots: u32, place: u32, offset: i32) {
        self.record(kinds::leaves::RING, &[slots, place, offset as u32]);
    }

    pub fn sections(&mut self, sections: u32, length_blocks: u32, headroom_samples: u32) {
        let body = [sections, length_blocks, headroom_samples];
        self.record(kinds::leaves::SECTIONS, &body);
    }

    pub fn erl_start(&mut self, startup: u32) {
        self.record(kinds::erl::START, &[startup]);
    }

    pub fn erl_update(&mut self, call: &kinds::erl::Call) {
        self.whole(kinds::erl::UPDATE, &call.body());
    }

    pub fn erl_reset(&mut self) {
        self.record(kinds::erl::RESET, &[]);
    }

    /// A start of an estimator that stands alone.
    pub fn start<E: Estimator>(&mut self, start: &E::Start) {
        self.whole(E::START, &start.body());
    }

    pub fn update<E: Estimator>(&mut self, call: &E::Call) {
        self.whole(E::UPDATE, &call.body());
    }

    /// A reset that says nothing, or as little as it can.
    pub fn reset<E: Estimator>(&mut self) {
        self.reset_as::<E>(&E::Reset::default());
    }

    pub fn reset_as<E: Estimator>(&mut self, reset: &E::Reset) {
        self.whole(E::RESET, &reset.body());
    }

    /// The same update of a part of the ERLE estimator so many times.
    pub fn repeat<P: Part>(&mut self, times: u32, call: &Call) {
        let body = [field_bytes(&[times]), call.body()].concat();
        self.whole(P::REPEAT, &body);
    }

    /// A record whose body is these fields.
    pub fn record(&mut self, kind: u16, body: &[u32]) {
        self.whole(kind, &field_bytes(body));
    }

    /// A record with its right length.
    pub fn whole(&mut self, kind: u16, body: &[u8]) {
        self.framed(2 + body.len() as u32, kind, body);
    }

    /// A record with the length as said, whatever its body's.
    fn framed(&mut self, length: u32, kind: u16, body: &[u8]) {
        self.bytes.extend(length.to_le_bytes());
        self.bytes.extend(kind.to_le_bytes());
        self.bytes.extend(body);
    }

    /// The script up to a byte.
    fn cut(&self, end: usize) -> Self {
        Self {
            bytes: self.bytes[..end].to_vec(),
        }
    }

    /// The script with one byte changed to any other.
    fn changed(&self, at: usize, random: &mut random::Random) -> Self {
        let mut script = self.clone();
        script.bytes[at] ^= 1 + random.below(255) as u8;
        script
    }
}
