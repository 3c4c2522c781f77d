//! Small bad traces: each number for faults beside its limits, alone, in pairs
//! and in every choice of numbers; and good ones just inside the limits.

use super::draft::Draft;
use super::faults::{Groups, GOOD_BLOCKS, GOOD_RESETS, GOOD_SETTINGS};
use super::faults::{OF_BLOCKS, OF_RESETS, OF_SETTINGS};
use super::{settled, Script, EXAMPLE};
use crate::judge::{BANDS, CAPTURE_CHANNELS};
use crate::kinds::call::Call;
use crate::kinds::erle::DelayChanged;
use crate::scripts::faults::{faulty, singles, singles_and_pairs, Fault, Lends, BAD};
use crate::scripts::part::converged;
use crate::scripts::part::refused::good_call;
use crate::scripts::random::Random;
use crate::scripts::spectra::{Power, LOUD, SPECIALS};
use crate::trace::records::Settings;

/// The empty trace first.
pub fn traces() -> Vec<Script> {
    let mut traces = vec![Script::default()];
    traces.extend(drafts().iter().map(Draft::trace));
    traces.extend(CAPTURE_CHANNELS.map(|channels| passing_values(channels as usize)));
    traces
}

/// The records, each in a trace of its own.
pub fn drafts() -> Vec<Draft> {
    let mut drafts = Vec::new();
    for sort in sorts(2) {
        drafts.extend(sort.inside_and_alone());
        drafts.extend(sort.pairs());
        drafts.extend(sort.choices());
    }
    for channels in CAPTURE_CHANNELS {
        drafts.extend(bad_flags(channels as usize));
        drafts.extend(bad_values(channels as usize));
    }
    drafts
}

/// A good record, what leaves it good, and what makes it bad.
pub struct Sort {
    good: Draft,
    inside: &'static [Fault<Draft>],
    groups: Groups,
}

/// A record of each kind, those other than settings behind
/// settings of so many channels and a reset.
pub fn sorts(channels: usize) -> [Sort; 3] {
    let before = before(channels);
    let reset = Draft::reset(before.clone(), channels, DelayChanged(false));
    [
        Sort {
            good: Draft::settings(&EXAMPLE),
            inside: &GOOD_SETTINGS,
            groups: OF_SETTINGS,
        },
        Sort {
            good: Draft::block(before, &block(channels)),
            inside: &GOOD_BLOCKS,
            groups: OF_BLOCKS,
        },
        Sort {
            good: reset,
            inside: &GOOD_RESETS,
            groups: OF_RESETS,
        },
    ]
}

impl Sort {
    /// The good record, those just inside the limits, and each fault alone.
    pub fn inside_and_alone(&self) -> Vec<Draft> {
        let mut drafts = vec![self.good.clone()];
        drafts.extend(singles(&self.good, &[self.inside]));
        drafts.extend(singles(&self.good, self.groups));
        drafts
    }

    /// Each fault with each of another number.
    fn pairs(&self) -> Vec<Draft> {
        let mut drafts = singles_and_pairs(&self.good, self.groups);
        drafts.retain(|draft| draft.numbers.len() == 2);
        drafts
    }

    /// A fault of every choice of numbers.
    pub fn choices(&self) -> Vec<Draft> {
        let first: Vec<_> = self.groups.iter().map(|group| &group[..1]).collect();
        faulty(&self.good, &first)
    }
}

/// The example's settings, for so many channels.
fn settled_for(channels: usize) -> Script {
    settled(&Settings {
        channels: channels as u8,
        ..EXAMPLE
    })
}

/// Settings and a reset.
fn before(channels: usize) -> Script {
    let mut script = settled_for(channels);
    script.delay(DelayChanged(true));
    script
}

fn block(channels: usize) -> Call {
    let mut random = Random::new(50 + channels as u64);
    good_call(&mut random, Power::Near, 0b0101, channels)
}

/// A bad byte in each flag of a block.
fn bad_flags(channels: usize) -> Vec<Draft> {
    let good = Draft::block(before(channels), &block(channels));
    let places = (0..channels).flat_map(|place| [2, 128, 255].map(|byte| (place, byte)));
    let bad = |(place, byte)| {
        let mut draft = good.clone();
        draft.put(place, [byte], 13);
        draft
    };
    places.map(bad).collect()
}

/// A bad value at each place of a block.
fn bad_values(channels: usize) -> Vec<Draft> {
    let good = Draft::block(before(channels), &block(channels));
    let bad = |place| {
        let bits: u32 = BAD[place % BAD.len()];
        let mut draft = good.clone();
        draft.put(draft.power(place), bits.to_le_bytes(), 6);
        draft
    };
    (0..BANDS * (1 + 2 * channels)).map(bad).collect()
}

/// One trace with a special value at each place of a block, all of which pass.
fn passing_values(channels: usize) -> Script {
    let mut script = settled_for(channels);
    for place in 0..BANDS * (1 + 2 * channels) {
        let mut call = converged(channels, LOUD, 3.0, 1.0);
        let power = call.lists().into_iter().flatten().nth(place);
        *power.expect("a place of the block") = SPECIALS[place % SPECIALS.len()];
        script.block(&call);
    }
    script
}
