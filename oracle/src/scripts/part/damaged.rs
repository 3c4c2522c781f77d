//! Small scripts of bad input for the program of the parts.

use super::refused::good_call;
use super::{quiet, SETTINGS};
use crate::kinds::part::{Part, Settings, TIMES};
use crate::record::{field_bytes, Body};
use crate::scripts::damage::{longest_records, Lending, Records};
use crate::scripts::random::Random;
use crate::scripts::spectra::Power;
use crate::scripts::Script;

/// The place of a start's first switch among its fields.
const FIRST_SWITCH: usize = 3;

pub fn scripts<P: Part>(unknown_kinds: &'static [u16]) -> Vec<Script> {
    let records = Records {
        good: good::<P>(),
        bodies: vec![(P::START, good_start::<P>(1).body()), (P::RESET, vec![])],
        unknown_kinds,
        next: Script::reset::<P>,
    };
    let mut all = records.damaged();
    let switches = FIRST_SWITCH..FIRST_SWITCH + P::Start::SWITCHES;
    let starts = [1, 5].map(|channels| good_start::<P>(channels).fields());
    all.extend(records.other_switches(P::START, switches, &starts));
    let update = lending::<P>(P::UPDATE, &[]);
    let repeat = lending::<P>(P::REPEAT, &[3]);
    for lending in [&update, &repeat] {
        all.extend(lending.damaged());
        all.extend(lending.wrong_lengths_with_none_standing());
    }
    all.extend(numbers_of_times::<P>(&repeat));
    all.extend(longest_records::<P>(&good_start::<P>(1), |flags| {
        let mut call = quiet(1);
        call.flags.resize(flags, true);
        call
    }));
    all
}

/// A start of so many channels, accepted if they are in range.
fn good_start<P: Part>(channels: u32) -> P::Start {
    P::Start::new(SETTINGS[0], 1, channels)
}

/// Records that print little.
fn good<P: Part>() -> Script {
    let mut script = Script::default();
    script.reset::<P>();
    script.start::<P>(&good_start::<P>(5));
    script.reset::<P>();
    script.start::<P>(&good_start::<P>(1));
    script.reset::<P>();
    script
}

/// An update of one channel, with fields before it.
fn lending<P: Part>(kind: u16, before: &[u32]) -> Lending {
    let mut start = Script::default();
    start.start::<P>(&good_start::<P>(1));
    let update = good_call(&mut Random::new(16), Power::Near, 1, 1);
    Lending {
        start,
        kind,
        body: [field_bytes(before), update.body()].concat(),
        channels: before.len(),
        first_number: before.len() + 1,
        numbers: &[1, 65, 65, 65],
        fields_behind: 0,
        wrapping: &[
            &[u32::MAX - 2, 66, 65, 65],
            &[u32::MAX - 258, 65, 130, 65],
            &[1, 65 + (1 << 29), 65 + (1 << 29), 65],
            &[1, 65, 65 + (1 << 30), 65 + (3 << 30)],
            &[1, 65 + (1 << 30), 65 + (1 << 30), 65 + (1 << 31)],
            &[1 + (1 << 31), 65, 65 + (1 << 29), 65],
            &[1, 65, 66 + (1 << 30), 64],
        ],
        other_numbers: &[
            &[5, 64, 65, 65],
            &[129, 33, 65, 65],
            &[781, 0, 0, 0],
            &[1, 195, 0, 0],
            &[1, 0, 195, 0],
            &[1, 0, 0, 195],
            &[1, 65, 64, 66],
            &[1, 65, 130, 0],
        ],
        next: Script::reset::<P>,
    }
}

/// Repeats about the least and the greatest number of times, also where none
/// stands.
fn numbers_of_times<P: Part>(repeat: &Lending) -> Vec<Script> {
    let mut scripts = Vec::new();
    let (least, most) = (*TIMES.start(), *TIMES.end());
    for times in [
        least - 1,
        least,
        most - 1,
        most,
        most + 1,
        most + 2,
        1 << 31,
        u32::MAX,
    ] {
        scripts.push(repeat.with_body(&repeat.with_fields(0, &[times])));
        let mut script = Script::default();
        script.repeat::<P>(times, &quiet(1));
        script.reset::<P>();
        scripts.push(script);
    }
    scripts
}
