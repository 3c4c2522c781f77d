//! Readings of how the whole estimator is put together, asked of the published
//! Rust.

mod reached;
mod state;

use super::echo_calls::{at_most_sixteen_counts, refused_in_order};
use super::{lines, number, Standing};
use crate::judge::BANDS;
use crate::kinds::erle::{Call, DelayChanged, Erle, Start};
use crate::kinds::standing::Estimator;
use crate::record::Body;
use crate::scripts::erle::{example_start, start, whole, with_echo};
use crate::scripts::part::{converged, POINTS, SETTINGS};
use crate::scripts::signal::calls::{flat, only_block};
use crate::scripts::spectra::LOUD;
use crate::scripts::Script;

/// What a first ratio of 3 makes of a figure of 1.
const MOVED: u32 = 0x3F8C_CCCD;

fn after(start: &Start, calls: &[(usize, Call)]) -> Standing {
    Standing::after_updates::<Erle>(start, calls)
}

/// A converged call of one channel, on a ring of one slot that nothing answers.
fn block(render: f32, capture: f32) -> Call {
    let echo = whole(&flat(&[true], [0.0; 3], 0.0));
    with_echo(&converged(1, render, capture, 1.0), &echo)
}

/// The example with another startup count.
fn with_startup(startup: u32) -> Start {
    Start {
        startup,
        ..example_start()
    }
}

/// A start of two sections, whose boundaries are 0, 2 and 4.
fn two_sections() -> Start {
    start(0, SETTINGS[0], 1, [2, 4, 0])
}

/// How many of the example's blocks it takes to the first figure, after what a
/// closure adds to the start.
fn blocks_to_the_first_figure(start: &Start, before: impl Fn(&mut Script)) -> Option<usize> {
    (1..40).find(|&blocks| {
        let text = lines(|script| {
            script.start::<Erle>(start);
            before(script);
            (0..blocks).for_each(|_| script.update::<Erle>(&block(LOUD, 3.0)));
        });
        Standing { text }.band("plain", 20) == MOVED
    })
}

#[test]
fn the_example_of_document_01() {
    for (blocks, bits) in [(5, 0x3F80_0000), (6, MOVED), (7, MOVED)] {
        let standing = after(&example_start(), &[(blocks, block(LOUD, 3.0))]);
        for name in ["plain", "comp", "unb"] {
            assert_eq!(standing.band(name, 20), bits);
        }
        assert_eq!(standing.band("onsets", 20), 0x3F80_0000);
    }
}

#[test]
fn first_figures_after_the_startup_phase() {
    for (startup, blocks) in [(0, 6), (1, 6), (2, 7), (3, 8)] {
        let first = blocks_to_the_first_figure(&with_startup(startup), |_| ());
        assert_eq!(first, Some(blocks));
    }
    for startup in [1 << 31, u32::MAX] {
        let first = blocks_to_the_first_figure(&with_startup(startup), |_| ());
        assert_eq!(first, None);
    }
}

#[test]
fn refused_blocks_are_not_counted() {
    let first = blocks_to_the_first_figure(&with_startup(3), |script| {
        let refused = block(-1.0, 3.0);
        (0..9).for_each(|_| script.update::<Erle>(&refused));
    });
    assert_eq!(first, Some(8));
}

#[test]
fn blocks_count_anew_only_if_the_delay_changed() {
    for (changed, blocks) in [(false, 8), (true, 13)] {
        let first = blocks_to_the_first_figure(&with_startup(8), |script| {
            (0..5).for_each(|_| script.update::<Erle>(&block(LOUD, 3.0)));
            script.reset_as::<Erle>(&DelayChanged(changed));
        });
        assert_eq!(first, Some(blocks));
    }
}

#[test]
fn both_resets_clear_all_parts() {
    for start in [example_start(), two_sections()] {
        for changed in [false, true] {
            let started = after(&start, &[]).text;
            let text = lines(|script| {
                script.start::<Erle>(&start);
                (0..80).for_each(|_| script.update::<Erle>(&block(LOUD, 3.0)));
                script.reset_as::<Erle>(&DelayChanged(changed));
            });
            let (_, figures) = started.split_once('\n').unwrap();
            let (seen, reset) = text.split_once("erle reset\n").unwrap();
            assert_eq!(reset, figures);
            assert!(!seen.ends_with(figures));
        }
    }
}

#[test]
fn with_sections_the_uncapped_figures_are_the_plain_ones() {
    let calls = [(100 * POINTS, block(LOUD, 30.0))];
    let one = after(&example_start(), &calls);
    assert_eq!(one.band("plain", 20), 4_f32.to_bits());
    let uncapped = f32::from_bits(one.band("unb", 20));
    assert!((29.8..29.9).contains(&uncapped), "{uncapped}");
    let two = after(&two_sections(), &calls);
    assert_eq!(two.line("unb", 0), two.line("plain", 0));
    assert_eq!(two.band("unb", 20), 4_f32.to_bits());
}

#[test]
fn the_averages_are_those_of_the_same_block() {
    for (blocks, bits) in [(5, 0x3F80_0000), (6, MOVED)] {
        let standing = after(&two_sections(), &[(blocks, block(LOUD, 3.0))]);
        for name in ["plain", "comp", "unb"] {
            assert_eq!(standing.band(name, 20), bits);
        }
    }
}

#[test]
fn the_compensated_stream_decays_in_the_same_block() {
    for start in [example_start(), two_sections()] {
        let standing = after(&start, &[(6, block(0.0, 3.0))]);
        assert_eq!(standing.band("plain", 20), MOVED);
        assert_eq!(standing.band("comp", 20), 0x3F88_9375);
    }
}

#[test]
fn without_onset_detection_the_compensated_figures_are_the_plain_ones() {
    for mut start in [example_start(), two_sections()] {
        start.signal.settings.onset = false;
        let standing = after(&start, &[(6, block(0.0, 3.0))]);
        assert_eq!(standing.band("comp", 20), MOVED);
    }
}

#[test]
fn decibels_are_three_times_the_fullband_figure() {
    let standing = after(&example_start(), &[(6, block(LOUD, 3.0))]);
    let fields = standing.fields("full ");
    assert_eq!(fields.len(), 3);
    assert_eq!(number(fields[1]), 3.0 * number(fields[0]));
    assert_eq!(fields[2], "00000000");
    let standing = after(&example_start(), &[(5, block(LOUD, 3.0))]);
    assert_eq!(standing.fields("full "), ["3D6ED000", "3E331C00", "absent"]);
}

/// The last answer after a start and these calls.
fn answer(start: &Start, calls: &[(usize, Call)]) -> String {
    after(start, calls).answer_of("erle")
}

#[test]
fn refused_starts_in_their_order() {
    let answer = |limits, channels, filter| answer(&start(0, limits, channels, filter), &[]);
    assert_eq!(answer(SETTINGS[0], 4, [8, 16, 575]), "start");
    assert_eq!(answer(SETTINGS[0], 4, [8, 16, 576]), "start refused 3");
    assert_eq!(answer(SETTINGS[0], 1, [1, 1, 1_024]), "start");
    assert_eq!(answer(SETTINGS[0], 5, [9, 17, 1_025]), "start refused 2");
    assert_eq!(
        answer([1.0, 0.5, 1.5], 5, [9, 17, 1_025]),
        "start refused 1"
    );
}

#[test]
fn refused_updates_in_their_order() {
    for sections in [1, 2] {
        let start = start(u32::MAX, SETTINGS[0], 2, [sections, 4, 128]);
        let call = flat(&[true, true], [LOUD, 3.0, -0.0], 0.0).on_ones(2);
        refused_in_order(
            whole(&call.answering(&[only_block(3), Vec::new()])),
            |call| call.responses[0] = f32::NAN,
            |call| answer(&start, &[(2, call.clone())]),
        );
    }
}

#[test]
fn at_most_sixteen_response_block_counts_are_said() {
    at_most_sixteen_counts::<Erle>(&example_start(), 9);
}

#[test]
fn malformed_bodies_end_the_run() {
    let ends = |kind: u16, body: &[u8]| {
        lines(|script| {
            script.whole(kind, body);
            script.reset::<Erle>();
        })
    };
    for place in [4, 9, 10] {
        let mut fields = example_start().fields();
        fields[place] = 2;
        let body: Vec<u8> = fields.iter().flat_map(|f| f.to_le_bytes()).collect();
        assert_eq!(ends(Erle::START, &body), "bad\n");
    }
    let good = block(LOUD, 3.0).body();
    assert_eq!(good.len(), 4 * (9 + 1 + 4 * BANDS) + 1);
    let mut other_flag = good.clone();
    other_flag[40] = 2;
    let longer = [&good[..], &[0]].concat();
    for body in [&other_flag, &longer] {
        assert_eq!(ends(Erle::UPDATE, body), "bad\n");
    }
    for body in [&[][..], &[0], &[2, 0, 0, 0], &[0, 0, 0, 1], &[0; 8]] {
        assert_eq!(ends(Erle::RESET, body), "bad\n");
    }
    assert_eq!(ends(Erle::UPDATE, &good), "erle none\nerle none\n");
    assert_eq!(ends(Erle::RESET, &[1, 0, 0, 0]), "erle none\nerle none\n");
}

#[test]
fn a_refused_start_leaves_none() {
    let text = lines(|script| {
        script.start::<Erle>(&example_start());
        script.start::<Erle>(&start(0, SETTINGS[0], 1, [5, 4, 0]));
        script.update::<Erle>(&block(LOUD, 3.0));
    });
    let answers: Vec<&str> = text.lines().filter(|l| l.starts_with("erle")).collect();
    assert_eq!(answers, ["erle start", "erle start refused 3", "erle none"]);
}
