//! Readings of the subband steps, asked of the published Rust.

use super::{lines_of, records_of_kind, Standing};
use crate::judge::{BANDS, GREATEST_ERLE, GREATEST_VALUE};
use crate::kinds::call::Call;
use crate::kinds::part::Settings;
use crate::kinds::standing::Estimator;
use crate::kinds::subband::{Start, Subband};
use crate::program::Program;
use crate::record::Body;
use crate::scripts::part::{converged, flat, POINTS};
use crate::scripts::spectra::{LOUD, T};
use crate::scripts::subband::example_start;
use crate::scripts::Script;

/// The figure that the example's six blocks give, from 1 and a ratio of 3.
const MOVED: u32 = 0x3F8C_CCCD;

/// That figure after one step of the decay.
const DECAYED: u32 = 0x3F88_9375;

fn lines(fill: impl Fn(&mut Script)) -> String {
    lines_of(Program::ReplayParts, fill)
}

impl Standing {
    /// The bits of a figure in band 20, where the maximum is max_l.
    fn figure(&self, name: &str) -> u32 {
        self.band(name, 20)
    }

    fn hold(&self, channel: usize) -> &str {
        self.line("hold", channel)[20]
    }

    fn waits(&self, channel: usize) -> bool {
        self.line("wait", channel)[0].as_bytes()[20] == b'1'
    }
}

/// After the example's start and these calls.
fn after(calls: &[(u32, Call)]) -> Standing {
    Standing::after::<Subband>(&example_start(), calls)
}

fn six(render: f32, capture: f32, residual: f32) -> (u32, Call) {
    (POINTS as u32, converged(1, render, capture, residual))
}

fn quiet(times: u32) -> (u32, Call) {
    (times, flat(&[false], LOUD, 0.0, 1.0))
}

fn with_settings(min: f32, max_l: f32, max_h: f32) -> Start {
    Start {
        min,
        max_l,
        max_h,
        ..example_start()
    }
}

#[test]
fn the_example() {
    let five = after(&[(5, converged(1, LOUD, 3.0, 1.0))]);
    let moved = after(&[six(LOUD, 3.0, 1.0)]);
    for name in ["plain", "comp", "unb", "rawcomp"] {
        assert_eq!(five.figure(name), 1_f32.to_bits());
        assert_eq!(moved.figure(name), MOVED);
    }
    assert_eq!(moved.figure("onsets"), 1_f32.to_bits());
    assert_eq!((moved.hold(0), moved.waits(0)), ("249", false));
}

#[test]
fn the_two_maxima() {
    let standing = after(&[(600, converged(1, LOUD, 30.0, 1.0))]);
    for (band, figure) in [(0, 4.0_f32), (31, 4.0), (32, 1.5), (64, 1.5)] {
        assert_eq!(standing.band("plain", band), figure.to_bits());
    }
}

#[test]
fn the_sixth_point_counts_once() {
    let standing = after(&[six(LOUD, 3.0, 1.0), quiet(1)]);
    assert_eq!(standing.figure("plain"), MOVED);
    assert_eq!(standing.line("points", 0), ["6"]);
}

#[test]
fn the_held_residual_decides() {
    let first_five = (5, converged(1, LOUD, 3.0, 1.0));
    let standing = after(&[first_five.clone(), (1, converged(1, LOUD, 3.0, 0.0))]);
    assert_eq!(standing.figure("plain"), 0x3F90_A3D7);
    let without = six(LOUD, 3.0, 0.0);
    let eleven = after(&[without.clone(), first_five]);
    assert_eq!(eleven.figure("plain"), 1_f32.to_bits());
    let twelve = after(&[without, six(LOUD, 3.0, 1.0)]);
    assert_eq!(twelve.figure("plain"), MOVED);
}

#[test]
fn one_low_block_suffices() {
    let low = (1, converged(1, T.next_down(), 3.0, 1.0));
    let standing = after(&[low, (5, converged(1, T, 3.0, 1.0))]);
    assert_eq!(standing.figure("comp"), DECAYED);
    assert_eq!(standing.figure("plain"), MOVED);
    assert_eq!((standing.hold(0), standing.waits(0)), ("0", true));
    let at_threshold = after(&[six(T, 3.0, 1.0)]);
    assert_eq!(at_threshold.figure("comp"), MOVED);
}

#[test]
fn low_energy_stops_falls_only() {
    let rising = after(&[six(0.0, 3.0, 1.0)]);
    assert_eq!(rising.figure("plain"), MOVED);
    assert_eq!(rising.figure("comp"), DECAYED);
    let infinite = after(&[six(0.0, GREATEST_VALUE, f32::from_bits(1))]);
    assert_eq!(infinite.figure("plain"), 4_f32.to_bits());
    assert_eq!(infinite.figure("unb"), GREATEST_ERLE.to_bits());
    let held = after(&[six(LOUD, 3.0, 1.0), six(0.0, 1.0, 1.0)]);
    assert_eq!(held.figure("plain"), MOVED);
    let falling = after(&[six(LOUD, 3.0, 1.0), six(LOUD, 1.0, 1.0)]);
    assert_eq!(falling.figure("plain"), 0x3F8B_851F);
}

#[test]
fn each_stream_compares_with_itself() {
    let calls = [(60, converged(1, LOUD, 10.0, 1.0)), six(LOUD, 2.0, 1.0)];
    let standing = Standing::after::<Subband>(&with_settings(1.0, 1.5, 1.5), &calls);
    assert_eq!(standing.figure("plain"), 1.5_f32.to_bits());
    assert_eq!(standing.figure("unb"), 0x408B_3518);
}

#[test]
fn a_move_rounds_three_times() {
    let twice = after(&[(12, converged(1, LOUD, 3.0, 1.0))]);
    assert_eq!(twice.figure("plain"), 0x3F98_F5C3);
    let from = f32::from_bits(0x3FFB_02C1);
    let to = f32::from_bits(0x40B2_E148);
    let calls = [
        (5, converged(1, LOUD, 0.0, 0.0)),
        (1, converged(1, LOUD, to, 1.0)),
    ];
    let standing = Standing::after::<Subband>(&with_settings(from, 100.0, 100.0), &calls);
    assert_eq!(standing.figure("plain"), 0x4009_1E3C);
}

#[test]
fn the_decay_begins_with_the_ninety_ninth_quiet_block() {
    let before = after(&[six(LOUD, 3.0, 1.0), quiet(98)]);
    assert_eq!(before.figure("comp"), MOVED);
    assert_eq!(before.hold(0), "151");
    let first = after(&[six(LOUD, 3.0, 1.0), quiet(99)]);
    assert_eq!(first.figure("comp"), DECAYED);
    assert_eq!(first.hold(0), "150");
}

#[test]
fn one_channel_decays_while_another_converges() {
    let start = Start {
        channels: 2,
        ..example_start()
    };
    let both = flat(&[true, true], LOUD, 3.0, 1.0);
    let first_alone = flat(&[true, false], LOUD, 3.0, 1.0);
    let standing = Standing::after::<Subband>(&start, &[(6, both), (600, first_alone)]);
    assert_eq!(standing.line("comp", 1)[20], "3F800000");
    assert_eq!(standing.line("plain", 1)[20], "3F8CCCCD");
    assert_eq!((standing.hold(0), standing.waits(0)), ("249", false));
    assert_eq!((standing.hold(1), standing.waits(1)), ("0", true));
}

#[test]
fn without_onset_detection_the_compensated_stream_stays() {
    let start = Start {
        onset: false,
        ..example_start()
    };
    let standing = Standing::after::<Subband>(&start, &[six(LOUD, 3.0, 1.0), quiet(600)]);
    assert_eq!(standing.figure("comp"), MOVED);
    assert_eq!(standing.figure("rawcomp"), 1_f32.to_bits());
    assert_eq!((standing.hold(0), standing.waits(0)), ("0", true));
}

#[test]
fn a_reset_clears_points_and_low_energy() {
    let text = |blocks: u32| {
        lines(|script| {
            script.start::<Subband>(&example_start());
            script.repeat::<Subband>(3, &converged(1, 0.0, 3.0, 1.0));
            script.reset::<Subband>();
            script.repeat::<Subband>(blocks, &converged(1, LOUD, 3.0, 1.0));
        })
    };
    let (five, six) = (Standing { text: text(5) }, Standing { text: text(6) });
    assert_eq!(five.figure("comp"), 1_f32.to_bits());
    assert_eq!(six.figure("comp"), MOVED);
}

#[test]
fn the_outer_bands_copy_their_neighbours() {
    let mut call = converged(1, LOUD, 3.0, 1.0);
    call.capture[0] = 0.0;
    call.capture[BANDS - 1] = 0.0;
    let standing = after(&[(6, call)]);
    for band in [0, BANDS - 1] {
        assert_eq!(standing.band("plain", band), MOVED);
        assert_eq!(standing.band("y2sum", band), 0);
        assert_eq!(standing.line("hold", 0)[band], "0");
    }
}

#[test]
fn the_longest_rest() {
    let rest = |blocks| {
        let start = with_settings(1.0, GREATEST_ERLE, GREATEST_ERLE);
        let learnt = six(LOUD, GREATEST_VALUE, f32::from_bits(1));
        Standing::after::<Subband>(&start, &[learnt, quiet(blocks)])
    };
    assert_eq!(rest(98).figure("comp"), GREATEST_ERLE.to_bits());
    assert_ne!(rest(475).figure("comp"), 1_f32.to_bits());
    assert_eq!(rest(476).figure("comp"), 1_f32.to_bits());
    assert!(!rest(248).waits(0) && rest(249).waits(0));
    assert_eq!(rest(600).figure("plain"), GREATEST_ERLE.to_bits());
}

/// The answer to one start.
fn start_answer(start: Start) -> String {
    let text = lines(|script| script.start::<Subband>(&start));
    text.lines().next().unwrap().to_string()
}

#[test]
fn refused_starts_in_their_order() {
    let limits = [1.0, GREATEST_ERLE, GREATEST_ERLE];
    assert_eq!(
        start_answer(with_settings(limits[0], limits[1], limits[2])),
        "subband start"
    );
    for at in 0..3 {
        let beyond = [1_f32.next_down(), GREATEST_ERLE.next_up(), f32::NAN];
        for value in beyond {
            let mut settings = limits;
            settings[at] = value;
            let mut start = with_settings(settings[0], settings[1], settings[2]);
            assert_eq!(start_answer(start), "subband start refused 1");
            start.channels = 0;
            assert_eq!(start_answer(start), "subband start refused 1");
        }
    }
    for channels in [0, 5] {
        let start = Start {
            channels,
            ..example_start()
        };
        assert_eq!(start_answer(start), "subband start refused 2");
    }
}

#[test]
fn refused_updates_in_their_order() {
    let answer = |call: &Call| {
        let standing = after(&[six(LOUD, 3.0, 1.0), (2, call.clone())]);
        assert_eq!(standing.figure("plain"), MOVED);
        let mut lines = standing.text.lines();
        let answer = lines.rfind(|line| line.starts_with("subband"));
        answer.unwrap().to_string()
    };
    let mut call = converged(1, -0.0, GREATEST_VALUE, GREATEST_VALUE);
    assert_eq!(answer(&call), "subband ok");
    call.residual[64] = GREATEST_VALUE.next_up();
    assert_eq!(answer(&call), "subband refused 6");
    call.flags[0] = false;
    assert_eq!(answer(&call), "subband refused 6");
    call.render.pop();
    assert_eq!(answer(&call), "subband refused 5");
    call.channels = 2;
    assert_eq!(answer(&call), "subband refused 21");
}

#[test]
fn nothing_stands_before_an_accepted_start() {
    let text = lines(|script| {
        script.reset::<Subband>();
        script.update::<Subband>(&converged(1, LOUD, 3.0, 1.0));
        script.start::<Subband>(&with_settings(1.0, 0.5, 1.0));
        script.repeat::<Subband>(2, &converged(1, LOUD, 3.0, 1.0));
    });
    assert_eq!(
        text,
        "subband none\nsubband none\nsubband start refused 1\nsubband none\n"
    );
}

#[test]
fn a_repeat_is_as_many_updates() {
    let call = converged(1, LOUD, 3.0, 1.0);
    let one_by_one = lines(|script| {
        script.start::<Subband>(&example_start());
        (0..100).for_each(|_| script.update::<Subband>(&call));
    });
    let repeated = after(&[(100, call)]).text;
    let figures = 1 + 11;
    assert_eq!(repeated.lines().count(), 2 * figures);
    let last = |text: &str| text.lines().rev().take(figures).collect::<String>();
    assert_eq!(last(&repeated), last(&one_by_one));
}

#[test]
fn malformed_bodies_end_the_run() {
    let call = converged(1, LOUD, 3.0, 1.0);
    let mut other_onset = example_start().fields();
    other_onset[3] = 2;
    let mut other_flag = call.body();
    other_flag[20] = 2;
    let damage: [&dyn Fn(&mut Script); 4] = [
        &|script| script.record(Subband::START, &other_onset),
        &|script| script.whole(Subband::UPDATE, &other_flag),
        &|script| script.repeat::<Subband>(0, &call),
        &|script| script.repeat::<Subband>(65_536, &call),
    ];
    for damaged in damage {
        let text = lines(|script| {
            damaged(script);
            script.reset::<Subband>();
        });
        assert_eq!(text, "bad\n");
    }
}

#[test]
fn each_program_has_kinds_of_its_own() {
    let reset = |script: &mut Script| script.reset::<Subband>();
    assert_eq!(lines_of(Program::Replay, reset), "bad\n");
    assert_eq!(lines(|script| script.erl_reset()), "bad\n");
}

#[test]
fn the_scripts_hold_three_hundred_thousand_updates() {
    assert!(records_of_kind("subband", Subband::UPDATE) >= 300_000);
}
