//! What a run with the word `state` shows.

use super::{block, start, two_sections, with_startup, LOUD};
use crate::kinds::erle::{DelayChanged, Erle, Start};
use crate::program::Program;
use crate::run::Run;
use crate::scripts::part::SETTINGS;
use crate::scripts::Script;

/// The lines of a run that shows the state.
fn shown(fill: impl Fn(&mut Script)) -> Vec<String> {
    let mut script = Script::default();
    fill(&mut script);
    let (lines, _) = Run::showing(Program::Replay, true, &script.bytes).finish();
    let text = String::from_utf8(lines.as_bytes().to_vec()).unwrap();
    text.lines().map(str::to_string).collect()
}

/// The lines after a start and so many blocks.
fn shown_after(start: &Start, blocks: usize) -> Vec<String> {
    shown(|script| {
        script.start::<Erle>(start);
        (0..blocks).for_each(|_| script.update::<Erle>(&block(LOUD, 3.0)));
    })
}

const FIGURES: [&str; 4] = ["plain", "comp", "unb", "onsets"];
const SUBBAND: [&str; 6] = ["points", "y2sum", "e2sum", "low", "wait", "hold"];
const SIGNAL: [&str; 5] = ["updates", "active", "reference", "estimates", "factors"];

#[test]
fn the_state_stands_behind_the_figures_channel_by_channel() {
    for sections in [1, 3] {
        let lines = shown(|script| {
            script.reset::<Erle>();
            script.start::<Erle>(&start(0, SETTINGS[0], 2, [sections, 4, 0]));
            script.start::<Erle>(&start(0, SETTINGS[0], 5, [sections, 4, 0]));
        });
        let names: Vec<&str> = lines.iter().map(|l| l.split(' ').next().unwrap()).collect();
        let mut wanted = vec!["erle", "erle"];
        wanted.extend([FIGURES, FIGURES].concat());
        wanted.extend(["full", "count"]);
        for _ in 0..2 {
            wanted.extend(SUBBAND);
            if sections > 1 {
                wanted.extend(SIGNAL);
            }
            wanted.push("fullstate");
        }
        wanted.push("erle");
        assert_eq!(names, wanted);
    }
}

#[test]
fn numbers_of_the_state() {
    let lines = shown_after(&start(0, SETTINGS[0], 1, [3, 4, 0]), 7);
    let fields = |head: &str| {
        let last = lines.iter().rev().find_map(|l| l.strip_prefix(head));
        last.unwrap().split(' ').count()
    };
    for (head, count) in [
        ("count ", 1),
        ("points 0 ", 1),
        ("y2sum 0 ", 65),
        ("low 0 ", 1),
        ("hold 0 ", 65),
        ("updates 0 ", 6),
        ("active 0 ", 65),
        ("reference 0 ", 6),
        ("estimates 0 ", 18),
        ("factors 0 ", 18),
        ("fullstate 0 ", 9),
    ] {
        assert_eq!(fields(head), count, "{head}");
    }
}

#[test]
fn the_count_stands_still_in_a_reset_without_a_change_of_delay() {
    let counts = |changed: bool| {
        let lines = shown(|script| {
            script.start::<Erle>(&with_startup(9));
            (0..3).for_each(|_| script.update::<Erle>(&block(LOUD, 3.0)));
            script.update::<Erle>(&block(-1.0, 3.0));
            script.reset_as::<Erle>(&DelayChanged(changed));
        });
        let counts: Vec<String> = lines
            .iter()
            .filter(|l| l.starts_with("count"))
            .cloned()
            .collect();
        counts.join(" ")
    };
    let before = "count 0 count 1 count 2 count 3 count 3";
    assert_eq!(counts(false), format!("{before} count 3"));
    assert_eq!(counts(true), format!("{before} count 0"));
}

#[test]
fn nothing_is_held_in_the_startup_phase() {
    for (startup, points) in [(9, "points 0 0"), (7, "points 0 1"), (0, "points 0 1")] {
        let lines = shown_after(&with_startup(startup), 7);
        let last = lines.iter().rev().find(|l| l.starts_with("points"));
        assert_eq!(last.unwrap(), points);
    }
    let lines = shown_after(&two_sections(), 51);
    assert!(lines.contains(&"updates 0 51 51 51 51 51 51".to_string()));
}
