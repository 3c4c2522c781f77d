//! Runs a script or a trace through the published Rust and looks at the figures
//! after each call, or in each row.

use super::estimators::Watched;
use super::seen::Seen;
use crate::judge::GREATEST_ERLE;
use crate::kinds::erle::Erle;
use crate::kinds::fullband::FullBand;
use crate::kinds::part::{repeated, Part};
use crate::kinds::signal::Signal;
use crate::kinds::standing::{Estimator, Standing};
use crate::kinds::subband::Subband;
use crate::kinds::Groups;
use crate::lines::{number, Lines};
use crate::program::Program;
use crate::record::{take_record, Malformed, Record};
use crate::run::run;

/// Watches an input of a program. Gives words for the first figure out of bounds.
pub fn watch(program: Program, input: &[u8], seen: &mut Seen) -> Option<String> {
    match program {
        Program::Replay => watch_script(Groups::replay(false), input, seen),
        Program::ReplayParts => watch_script(Groups::replay_parts(), input, seen),
        Program::TracePrinter => {
            let (lines, _) = run(program, input);
            watch_listing(&String::from_utf8_lossy(lines.as_bytes()), seen)
        }
    }
}

/// Watches a script up to its end or its first bad record.
fn watch_script(mut groups: Groups, mut script: &[u8], seen: &mut Seen) -> Option<String> {
    let mut first = None;
    let mut records = 0;
    while let Ok(record) = take_record(&mut script) {
        records += 1;
        let done = watch_record(&mut groups, &record, seen);
        if let Some(out) = seen.out.take() {
            first.get_or_insert_with(|| format!("record {records}: {out}"));
        }
        if done.is_err() {
            break;
        }
    }
    first
}

/// Watches the estimator whose kind a record is of.
fn watch_record(
    groups: &mut Groups,
    record: &Record<'_>,
    seen: &mut Seen,
) -> Result<(), Malformed> {
    match (groups, record.kind) {
        (Groups::Replay { erle, .. }, Erle::START..=Erle::RESET) => watch_call(erle, record, seen),
        (Groups::Replay { signal, .. }, Signal::START..=Signal::RESET) => {
            watch_call(signal, record, seen)
        }
        (Groups::ReplayParts { subband, .. }, Subband::START..=Subband::REPEAT) => {
            watch_part(subband, record, seen)
        }
        (Groups::ReplayParts { fullband, .. }, FullBand::START..=FullBand::REPEAT) => {
            watch_part(fullband, record, seen)
        }
        (others, _) => others.answer(record, &mut Lines::default()),
    }
}

fn watch_call<E: Watched>(
    standing: &mut Standing<E>,
    record: &Record<'_>,
    seen: &mut Seen,
) -> Result<(), Malformed> {
    standing.call(record, &mut Lines::default())?;
    look(standing, seen);
    Ok(())
}

/// A repeat is watched after each of its calls, though it shows the last alone.
fn watch_part<P: Watched + Part>(
    standing: &mut Standing<P>,
    record: &Record<'_>,
    seen: &mut Seen,
) -> Result<(), Malformed> {
    if record.kind != P::REPEAT {
        return watch_call(standing, record, seen);
    }
    let (times, body) = repeated(record)?;
    for _ in 0..times {
        standing.update(1, body.clone(), &mut Lines::default())?;
        look(standing, seen);
    }
    Ok(())
}

fn look<E: Watched>(standing: &Standing<E>, seen: &mut Seen) {
    if let Some(started) = standing.started() {
        seen.looks += 1;
        E::look(started, seen);
    }
}

/// The figures of a row behind its block and its channel.
const COLUMNS: [&str; 3] = ["plain", "compensated", "uncapped"];

/// Watches the rows of a listing, which stand between its header and a refusal.
pub fn watch_listing(listing: &str, seen: &mut Seen) -> Option<String> {
    let mut first = None;
    let rows = listing.lines().skip(1);
    for (row, text) in rows.take_while(|l| !l.starts_with("refused")).enumerate() {
        let fields: Vec<&str> = text.split(' ').collect();
        let &[_, channel, ref figures @ ..] = &fields[..] else {
            panic!("a row has a block and a channel");
        };
        assert_eq!(figures.len(), COLUMNS.len(), "{text}");
        let channel = channel.parse().expect("a channel is a number");
        seen.looks += 1;
        for (name, figure) in COLUMNS.into_iter().zip(figures) {
            seen.see(name, channel, &[number(figure)], |_| 1.0..=GREATEST_ERLE);
        }
        if let Some(out) = seen.out.take() {
            first.get_or_insert_with(|| format!("row {}: {out}", row + 1));
        }
    }
    first
}
