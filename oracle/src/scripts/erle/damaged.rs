//! Small scripts of bad input.

use super::{example_start, start, whole};
use crate::judge::BANDS;
use crate::kinds::erle::{Call, DelayChanged, Erle};
use crate::kinds::standing::Estimator;
use crate::record::Body;
use crate::scripts::damage::{longest_records, Lending, Records};
use crate::scripts::part::SETTINGS;
use crate::scripts::signal::calls::flat;
use crate::scripts::spectra::LOUD;
use crate::scripts::Script;
use std::ops::Range;

/// The places of a start's flags among its fields: onset detection's, and those
/// of the clamps.
const FLAGS: [Range<usize>; 2] = [4..5, 9..11];

pub fn scripts() -> Vec<Script> {
    let records = Records {
        good: good(),
        bodies: vec![
            (Erle::START, example_start().body()),
            (Erle::RESET, DelayChanged(true).body()),
        ],
        unknown_kinds: &[
            0x0004, 0x0012, 0x0020, 0x0104, 0x0113, 0x011F, 0x0123, 0x0124, 0x012F, 0x0130, 0x0131,
            0x0143, 0x0150, 0x0220, 0x2001, 0x8120, 0xFFFF,
        ],
        next: Script::reset::<Erle>,
    };
    let mut all = records.damaged();
    let starts = [1, 5].map(|channels| start(3, SETTINGS[0], channels, [2, 4, 0]).fields());
    for places in FLAGS {
        all.extend(records.other_switches(Erle::START, places, &starts));
    }
    all.extend(records.other_switches(Erle::RESET, 0..1, &[vec![0]]));
    let update = lending();
    all.extend(update.damaged());
    all.extend(update.wrong_lengths_with_none_standing());
    all.extend(update.numbers_of_counts());
    all.extend(update.ends(BANDS));
    all.extend(longest_records::<Erle>(&example_start(), |flags| Call {
        flags: vec![true; flags],
        ..call()
    }));
    all
}

/// Records that print little.
fn good() -> Script {
    let mut script = Script::default();
    script.reset::<Erle>();
    script.start::<Erle>(&start(0, SETTINGS[0], 1, [9, 4, 0]));
    script.reset_as::<Erle>(&DelayChanged(true));
    script.start::<Erle>(&example_start());
    script.reset::<Erle>();
    script
}

/// A call of one channel with two response blocks.
fn call() -> Call {
    let call = whole(&flat(&[true], [LOUD, 3.0, 1.0], 2.0));
    call.answering(&[vec![[1.0; BANDS]; 2]])
}

fn lending() -> Lending {
    let mut start = Script::default();
    start.start::<Erle>(&super::start(2, SETTINGS[0], 1, [2, 4, 0]));
    Lending {
        start,
        kind: Erle::UPDATE,
        body: call().body(),
        channels: 0,
        first_number: 4,
        numbers: &[1, 65, 65, 65, 65],
        fields_behind: 1,
        wrapping: &[
            &[u32::MAX - 2, 66, 65, 65, 65],
            &[1, 65 + (1 << 29), 65 + (1 << 29), 65, 65],
            &[1, 65, 65, 65 + (1 << 30), 65 + (3 << 30)],
            &[1, 65, 65, 65 + (1 << 31), 65 + (1 << 31)],
            &[1 + (1 << 31), 65, 65, 65, 65 + (1 << 29)],
        ],
        other_numbers: &[
            &[5, 64, 65, 65, 65],
            &[1, 130, 65, 65, 0],
            &[1, 65, 65, 130, 0],
            &[1, 65, 65, 65, 130],
            &[1, 65, 65, 65, 195],
            &[1, 65, 65, 65, 196],
            &[2, 65, 65, 65, 65],
            &[3, 65, 65, 65, 65],
            &[1561, 0, 0, 0, 0],
            &[0, 0, 0, 0, 0],
        ],
        next: Script::reset::<Erle>,
    }
}
