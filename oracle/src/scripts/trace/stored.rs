//! The stored sample of the program that lists many traces. Each has at most
//! 65,536 bytes.

use super::damaged::{sorts, Sort};
use super::draft::Draft;
use super::random::Manner;
use super::{sample, settled, shown, Script, Settings, EXAMPLE};
use crate::judge::CAPTURE_CHANNELS;
use crate::kinds::erle::DelayChanged;
use crate::program::Program;
use crate::run::run;
use crate::scripts::flags::Flags;
use crate::scripts::part::{converged, quiet, POINTS};
use crate::scripts::random::Random;
use crate::scripts::spectra::{Power, LOUD};
use crate::scripts::subband::stretches::Ratio;
use crate::trace::records::{LENGTHS, SETTINGS};

/// Larger bad traces are left out, but for one.
const LARGE: usize = 4_000;

/// The stored input of the printer: longer than its buffer, and cut off in the middle
/// of the last record.
pub fn cut_off() -> Script {
    let shown = shown();
    shown.cut(shown.bytes.len() - 100)
}

/// The traces one behind the other, each with its length in four bytes before it,
/// and their listings one behind the other.
pub fn packed() -> (Vec<u8>, Vec<u8>) {
    let (mut input, mut lines) = (Vec::new(), Vec::new());
    for trace in traces() {
        input.extend((trace.bytes.len() as u32).to_le_bytes());
        input.extend(&trace.bytes);
        lines.extend(run(Program::TracePrinter, &trace.bytes).0.as_bytes());
    }
    (input, lines)
}

pub fn traces() -> Vec<Script> {
    let mut traces = vec![Script::default(), sample(), low_energy()];
    traces.extend(CAPTURE_CHANNELS.map(|channels| short(channels as u8, true)));
    traces.extend([1, 2].map(|channels| short(channels, false)));
    traces.extend(cuts());
    traces.push(longest());
    traces.extend(damaged());
    traces
}

/// Low energy, in which the compensated figure decays at once, and unconverged
/// blocks in which it goes on.
fn low_energy() -> Script {
    let mut script = settled(&EXAMPLE);
    (0..POINTS).for_each(|_| script.block(&converged(1, 0.0, 3.0, 1.0)));
    (0..2).for_each(|_| script.block(&quiet(1)));
    script
}

/// A few random blocks, as many as give a first ratio, with a reset among them.
fn short(channels: u8, onset: bool) -> Script {
    let settings = Settings {
        channels,
        onset,
        startup: [0, 1, 2, 0][channels as usize - 1],
        band: [0, 31, 32, 64][channels as usize - 1],
        ..EXAMPLE
    };
    let manner = Manner {
        render: Power::Loud,
        ratio: Ratio::Middle,
        flags: Flags::All,
    };
    let mut random = Random::new(100 + channels as u64);
    let mut script = settled(&settings);
    manner.add(&mut random, &mut script, channels.into(), 7);
    script.delay(DelayChanged(channels.is_multiple_of(2)));
    manner.add(&mut random, &mut script, channels.into(), 1);
    script
}

/// Settings, a reset, a block and a reset, cut so that each number of bytes is left
/// once, from one to all.
fn cuts() -> Vec<Script> {
    let mut script = settled(&EXAMPLE);
    script.delay(DelayChanged(false));
    script.block(&converged(1, LOUD, 3.0, 1.0));
    script.delay(DelayChanged(true));
    (1..=script.bytes.len())
        .map(|end| script.cut(end))
        .collect()
}

/// Settings of the greatest length, which is not theirs.
fn longest() -> Script {
    let mut body = EXAMPLE.body();
    body.resize(*LENGTHS.end() as usize - 2, 0);
    let mut script = Script::default();
    script.whole(SETTINGS, &body);
    script
}

/// Good records, records with a fault, and records with a fault of every choice of
/// numbers.
fn damaged() -> Vec<Script> {
    let drafts = |sort: Sort| [sort.inside_and_alone(), sort.choices()].concat();
    let traces = sorts(1).into_iter().flat_map(drafts);
    let traces = traces.map(|draft: Draft| draft.trace());
    traces.filter(|trace| trace.bytes.len() < LARGE).collect()
}
