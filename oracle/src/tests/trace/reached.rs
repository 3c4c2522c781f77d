//! What the good and the bad traces reach.

use super::{listing, refusal, traces, Settings, BLOCK, ORDER, RESET, SETTINGS};
use crate::judge::CAPTURE_CHANNELS;
use crate::record::{take_record, Record};
use crate::tests::counts::{count, each, Counts};

#[derive(Debug, Default)]
struct Reached {
    /// Traces, by the number that ends them; 0 is a clean end.
    ends: Counts<u32>,
    rows: usize,
    /// The settings of rows.
    bands: Counts<u8>,
    channels: Counts<u8>,
    onsets: Counts<bool>,
    startups: Counts<u32>,
    resets: Counts<u8>,
    /// Rows in which a figure has not the bits of the plain one.
    compensated_apart: usize,
    uncapped_apart: usize,
    /// Rows that are not those of the block before.
    moved: usize,
    compensated_fell: usize,
    most_blocks: usize,
}

impl Reached {
    fn see(&mut self, trace: &[u8]) {
        let listed = listing(trace);
        let end = refusal(&listed);
        count(&mut self.ends, end.map_or(0, |(number, _)| number));
        let mut rest = trace;
        let mut settings = None;
        for _ in 1..end.map_or(usize::MAX, |(_, record)| record) {
            let Ok(record) = take_record(&mut rest) else {
                break;
            };
            self.see_record(&mut settings, &record);
        }
        let channels = settings.map_or(1, |s| s.channels as usize);
        self.see_rows(&listed, channels);
    }

    /// A record that is accepted.
    fn see_record(&mut self, standing: &mut Option<Settings>, record: &Record<'_>) {
        match (record.kind, &standing) {
            (SETTINGS, _) => *standing = Settings::read(record.body).ok(),
            (RESET, _) => count(&mut self.resets, record.body[0]),
            (BLOCK, Some(settings)) => {
                count(&mut self.bands, settings.band);
                count(&mut self.channels, settings.channels);
                count(&mut self.onsets, settings.onset);
                count(&mut self.startups, settings.startup);
            }
            _ => panic!("an accepted record"),
        }
    }

    fn see_rows(&mut self, listed: &str, channels: usize) {
        let rows = listed.lines().skip(1).filter(|l| !l.starts_with("refused"));
        let rows: Vec<Vec<&str>> = rows.map(|line| line.split(' ').collect()).collect();
        self.rows += rows.len();
        self.most_blocks = self.most_blocks.max(rows.len() / channels);
        for row in &rows {
            self.compensated_apart += (row[3] != row[2]) as usize;
            self.uncapped_apart += (row[4] != row[2]) as usize;
        }
        for (before, after) in rows.iter().zip(rows.iter().skip(channels)) {
            self.moved += (before[2..] != after[2..]) as usize;
            self.compensated_fell += (before[3] > after[3] && before[2] == after[2]) as usize;
        }
    }

    fn all(&self) -> bool {
        each(0..=64, &self.bands, 100)
            && each(CAPTURE_CHANNELS.map(|c| c as u8), &self.channels, 5_000)
            && each([false, true], &self.onsets, 5_000)
            && each([0, 1, 2, 5, u32::MAX], &self.startups, 100)
            && each([0, 1], &self.resets, 500)
            && self.compensated_apart >= 5_000
            && self.uncapped_apart >= 5_000
            && self.moved >= 5_000
            && self.compensated_fell >= 1_000
    }
}

#[test]
fn random_traces_reach_what_they_are_for() {
    let mut reached = Reached::default();
    traces("trace_random").for_each(|trace| reached.see(&trace.bytes));
    let ends = each([0], &reached.ends, 1_000) && each(ORDER, &reached.ends, 25);
    assert!(ends && reached.all(), "{reached:?}");
}

#[test]
fn longer_traces_are_good() {
    let mut reached = Reached::default();
    traces("trace_longer").for_each(|trace| reached.see(&trace.bytes));
    let clean = reached.ends.keys().eq([&0]);
    let long = reached.most_blocks > 10_000 && reached.compensated_fell >= 1_000;
    assert!(clean && long, "{reached:?}");
}

#[test]
fn damaged_traces_have_each_number() {
    let mut reached = Reached::default();
    traces("trace_damaged").for_each(|trace| reached.see(&trace.bytes));
    assert!(each([0], &reached.ends, 20), "{reached:?}");
    assert!(each(ORDER, &reached.ends, 5), "{reached:?}");
}
