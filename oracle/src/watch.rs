//! Watches, on the published Rust alone, the bounds that are claimed of the
//! figures of the ERLE estimators.

mod estimators;
mod inputs;
mod limits;
mod seen;
#[cfg(test)]
mod tests;

use crate::kinds::erle::Erle;
use crate::kinds::fullband::FullBand;
use crate::kinds::signal::Signal;
use crate::kinds::standing::Estimator;
use crate::kinds::subband::Subband;
use crate::program::Program;
use crate::scripts::{Name, NAMES};
use seen::{Extent, Seen};
use std::thread;

/// The estimators whose scripts, good and damaged, are watched.
const ESTIMATORS: [&str; 4] = [Erle::NAME, Signal::NAME, Subband::NAME, FullBand::NAME];

const FACTORS: &str = "factors";

/// The figures whose least and greatest are told. Streams mostly reach their limits.
const TOLD: [&str; 7] = [
    FACTORS,
    "estimates",
    "reference",
    "figure",
    "greatest",
    "smallest",
    "quality",
];

/// Watches all generated scripts of the ERLE estimators and all traces, and prints
/// a line for each name, then the counts. Tells whether all bounds held.
pub fn watch() -> bool {
    let (mut passed, mut failed) = (0, 0);
    let mut factors = Extent::default();
    for (name, (seen, first)) in names().zip(watch_each()) {
        factors = factors.with(seen.extent(FACTORS));
        match judged(name, &seen, first) {
            Ok(found) => {
                println!("in bounds {}: {found}", name.name);
                passed += 1;
            }
            Err(fault) => {
                println!("failed {}: {fault}", name.name);
                failed += 1;
            }
        }
    }
    println!("factors: {factors}");
    println!("{passed} passed, {failed} failed");
    failed == 0
}

/// The names that are watched: all traces, and the scripts of the ERLE estimators.
fn names() -> impl Iterator<Item = &'static Name> {
    NAMES.iter().filter(|name| match name.program {
        Program::TracePrinter => true,
        _ => ESTIMATORS.iter().any(|word| name.name.ends_with(word)),
    })
}

/// Watches the names side by side, since most of the time goes into making scripts.
fn watch_each() -> Vec<(Seen, Option<String>)> {
    thread::scope(|scope| {
        let watchers: Vec<_> = names()
            .map(|name| scope.spawn(|| watch_all(name)))
            .collect();
        let seen = watchers.into_iter().map(|watcher| watcher.join());
        seen.map(|seen| seen.expect("the published Rust runs"))
            .collect()
    })
}

/// Watches all inputs of a name, with words for the first figure out of bounds.
fn watch_all(name: &Name) -> (Seen, Option<String>) {
    let mut seen = Seen::default();
    let mut first = None;
    for (make, number) in name.scripts().into_iter().zip(1..) {
        if let Some(out) = inputs::watch(name.program, &make().bytes, &mut seen) {
            first.get_or_insert_with(|| format!("{}, {out}", name.input(number)));
        }
    }
    (seen, first)
}

/// What was looked at and found, or the fault. To have looked at nothing is one.
fn judged(name: &Name, seen: &Seen, first: Option<String>) -> Result<String, String> {
    let looks = match name.program {
        Program::TracePrinter => "rows",
        _ => "calls",
    };
    let told = TOLD.iter().filter_map(|told| {
        let extent = seen.extents.get(told)?;
        Some(format!("; {told}: {extent}"))
    });
    let found = format!("{} {looks}{}", seen.looks, told.collect::<String>());
    match first {
        Some(out) => Err(format!(
            "{} figures out of bounds, the first in {out}\n  {found}",
            seen.outside()
        )),
        None if seen.looks == 0 => Err(found),
        None => Ok(found),
    }
}
