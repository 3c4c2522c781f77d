//! Small scripts of bad input.

use super::calls::flat;
use super::{example_start, start};
use crate::judge::BANDS;
use crate::kinds::signal::{Call, Signal};
use crate::kinds::standing::Estimator;
use crate::record::Body;
use crate::scripts::damage::{longest_records, Lending, Records};
use crate::scripts::part::SETTINGS;
use crate::scripts::spectra::LOUD;
use crate::scripts::Script;

/// The place of a start's onset flag among its fields.
const ONSET: usize = 3;

pub fn scripts() -> Vec<Script> {
    let records = Records {
        good: good(),
        bodies: vec![
            (Signal::START, example_start().body()),
            (Signal::RESET, vec![]),
        ],
        // With such bodies 0120 and 0121 are too short, and 0122 may be a call.
        unknown_kinds: &[
            0x0004, 0x0014, 0x0104, 0x0113, 0x0120, 0x0121, 0x0122, 0x0130, 0x013F, 0x0143, 0x0144,
            0x014F, 0x0150, 0x0240, 0x4001, 0x8140, 0xFFFF,
        ],
        next: Script::reset::<Signal>,
    };
    let mut all = records.damaged();
    let starts = [1, 5].map(|channels| start(SETTINGS[0], true, channels, [2, 4, 0]).fields());
    all.extend(records.other_switches(Signal::START, ONSET..ONSET + 1, &starts));
    let update = lending();
    all.extend(update.damaged());
    all.extend(update.wrong_lengths_with_none_standing());
    all.extend(update.numbers_of_counts());
    all.extend(update.ends(BANDS));
    all.extend(longest_records::<Signal>(&example_start(), |flags| Call {
        flags: vec![true; flags],
        ..call()
    }));
    all
}

/// Records that print little.
fn good() -> Script {
    let mut script = Script::default();
    script.reset::<Signal>();
    script.start::<Signal>(&start(SETTINGS[0], true, 1, [9, 4, 0]));
    script.reset::<Signal>();
    script.start::<Signal>(&example_start());
    script.reset::<Signal>();
    script
}

/// A call of one channel with two response blocks.
fn call() -> Call {
    let call = flat(&[true], [LOUD, 3.0, 1.0], 2.0);
    call.answering(&[vec![[1.0; BANDS]; 2]])
}

fn lending() -> Lending {
    let mut start = Script::default();
    start.start::<Signal>(&example_start());
    Lending {
        start,
        kind: Signal::UPDATE,
        body: call().body(),
        channels: 0,
        first_number: 4,
        numbers: &[1, 65, 65, 65, 65, 65, 65],
        fields_behind: 1,
        wrapping: &[
            &[u32::MAX - 2, 66, 65, 65, 65, 65, 65],
            &[1, 65 + (1 << 29), 65 + (1 << 29), 65, 65, 65, 65],
            &[1, 65, 65, 65, 65 + (1 << 30), 65 + (3 << 30), 65],
            &[1, 65, 65, 65, 65, 65 + (1 << 31), 65 + (1 << 31)],
            &[1 + (1 << 31), 65, 65, 65, 65, 65, 65 + (1 << 29)],
        ],
        other_numbers: &[
            &[5, 64, 65, 65, 65, 65, 65],
            &[1, 130, 65, 65, 65, 65, 0],
            &[1, 65, 65, 65, 130, 0, 65],
            &[1, 65, 65, 65, 65, 130, 65],
            &[1, 65, 65, 65, 65, 195, 65],
            &[1, 65, 65, 65, 65, 65, 195],
            &[1, 65, 65, 65, 65, 65, 196],
            &[2, 65, 65, 65, 65, 65, 65],
            &[3, 65, 65, 65, 65, 65, 65],
            &[2081, 0, 0, 0, 0, 0, 0],
            &[0, 0, 0, 0, 0, 0, 0],
        ],
        next: Script::reset::<Signal>,
    }
}
