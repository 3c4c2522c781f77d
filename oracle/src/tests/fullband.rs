//! Readings of the fullband steps, asked of the published Rust.

use super::{lines_of, number, records_of_kind, Standing};
use crate::audio_processing::aec3::fullband_erle_estimator::{peek_channel, PeekedChannel};
use crate::judge::{BANDS, GREATEST_VALUE};
use crate::kinds::call::Call;
use crate::kinds::fullband::{FullBand, Start};
use crate::kinds::part::{Part, Settings};
use crate::kinds::standing::Estimator;
use crate::kinds::subband::Subband;
use crate::program::Program;
use crate::record::{take_record, Body, Fields, Malformed, Record};
use crate::scripts::fullband::{example_start, HOLD};
use crate::scripts::part::{converged, flat, POINTS};
use crate::scripts::spectra::{LOUD, T};
use crate::scripts::sums::SUM_T;
use crate::scripts::{named, Script};

/// Log2 of the minimum plus 0.001, for a minimum of 1.
const MINIMUM: u32 = 0x3D6E_D000;

fn lines(fill: impl Fn(&mut Script)) -> String {
    lines_of(Program::ReplayParts, fill)
}

impl Standing {
    /// The bits of the fullband log2 figure.
    fn log2(&self) -> u32 {
        number(self.fields("full ")[0]).to_bits()
    }

    /// The quality of the first channel, after clamping.
    fn quality(&self) -> &str {
        self.fields("full ")[2]
    }

    /// A field of a channel's inner state.
    fn held(&self, channel: usize, field: usize) -> &str {
        self.fields(&format!("fullstate {channel} "))[field]
    }
}

// The places of the fields of the inner state.
const HELD: usize = 0;
const HELD_POINTS: usize = 1;
const FIGURE: usize = 2;
const CAPTURE_SUM: usize = 3;
const GREATEST: usize = 5;
const LEAST: usize = 6;
const LOG2: usize = 7;
const RAW_QUALITY: usize = 8;

/// After the example's start and these calls.
fn after(calls: &[(u32, Call)]) -> Standing {
    Standing::after::<FullBand>(&example_start(), calls)
}

fn six(capture: f32, residual: f32) -> (u32, Call) {
    blocks(POINTS as u32, capture, residual)
}

fn blocks(times: u32, capture: f32, residual: f32) -> (u32, Call) {
    (times, converged(1, LOUD, capture, residual))
}

fn quiet(times: u32) -> (u32, Call) {
    (times, flat(&[false], LOUD, 5.0, 1.0))
}

#[test]
fn a_start_and_the_first_figure() {
    let start = after(&[]);
    assert_eq!(start.log2(), MINIMUM);
    assert_eq!(start.quality(), "absent");
    let text = "fullstate 0 0 0 3D6ED000 00000000 00000000 C1200000 42040000 absent 00000000";
    assert_eq!(start.text.lines().last().unwrap(), text);
    let five = after(&[blocks(5, 3.0, 1.0)]);
    assert_eq!(five.log2(), MINIMUM);
    assert_eq!((five.held(0, HELD), five.held(0, HELD_POINTS)), ("-5", "5"));
    let sixth = after(&[six(3.0, 1.0)]);
    assert_eq!(sixth.held(0, LOG2), "3FC76640");
    assert_eq!(
        (sixth.held(0, HELD), sixth.held(0, HELD_POINTS)),
        ("99", "0")
    );
    let minimum = f32::from_bits(MINIMUM);
    let moved = minimum + 0.05 * (number("3FC76640") - minimum);
    assert_eq!(sixth.log2(), moved.to_bits());
}

#[test]
fn decibels_are_three_times_the_figure() {
    let standing = after(&[six(3.0, 1.0)]);
    let fields = standing.fields("full ");
    assert_eq!(number(fields[1]), 3.0 * number(fields[0]));
}

#[test]
fn a_sixth_point_without_residual_leaves_the_figure() {
    let figure = [six(3.0, 1.0), six(10.0, 1.0)];
    let before = after(&figure);
    let mut calls = figure.to_vec();
    calls.push(six(5.0, 0.0));
    let standing = after(&calls);
    for field in [FIGURE, GREATEST, LEAST, LOG2, RAW_QUALITY] {
        assert_eq!(standing.held(0, field), before.held(0, field));
    }
    assert_eq!(standing.quality(), "3F800000");
    assert_eq!(standing.held(0, HELD), "93");
    assert_eq!(standing.held(0, HELD_POINTS), "0");
    assert_eq!(standing.held(0, CAPTURE_SUM), "00000000");
}

#[test]
fn the_quality_is_absent_after_the_ninety_ninth_block() {
    let seen = |rest| after(&[six(3.0, 1.0), six(10.0, 1.0), quiet(rest)]);
    assert_eq!(seen(98).quality(), "3F800000");
    assert_eq!(seen(98).held(0, HELD), "1");
    for (rest, hold) in [(99, "0"), (100, "-1"), (65_535, "-65436")] {
        let standing = seen(rest);
        assert_eq!(standing.quality(), "absent");
        assert_eq!(standing.held(0, HELD), hold);
        assert_eq!(standing.held(0, FIGURE), seen(98).held(0, FIGURE));
        assert_eq!(standing.held(0, GREATEST), seen(98).held(0, GREATEST));
    }
}

#[test]
fn the_end_of_the_hold_discards_points() {
    let next_figure = |gap| {
        let first = after(&[six(3.0, 1.0)]).log2();
        (1..=12).find(|&more| {
            let calls = [six(3.0, 1.0), quiet(gap), blocks(more, 9.0, 1.0)];
            after(&calls).log2() != first
        })
    };
    assert_eq!(next_figure(93), Some(6));
    assert_eq!(next_figure(94), Some(11));
    // Below 0 nothing is cleared any more.
    assert_eq!(next_figure(99), Some(6));
    assert_eq!(next_figure(5_000), Some(6));
}

#[test]
fn the_extremes_outlast_the_accumulators() {
    let learnt = [six(3.0, 1.0), six(10.0, 1.0), quiet(120), six(6.0, 1.0)];
    assert_eq!(after(&learnt).quality(), "3F12434F");
    assert_eq!(after(&[six(6.0, 1.0)]).quality(), "00000000");
    let reset = lines(|script| {
        script.start::<FullBand>(&example_start());
        script.repeat::<FullBand>(12, &converged(1, LOUD, 3.0, 1.0));
        script.reset::<FullBand>();
    });
    let start = lines(|script| script.start::<FullBand>(&example_start()));
    let figures = |text: &str| text.lines().rev().take(2).collect::<String>();
    assert_eq!(figures(&reset), figures(&start));
}

#[test]
fn a_first_value_above_33_leaves_the_least() {
    let standing = after(&[six(2_f32.powi(34), 1.0)]);
    assert!(number(standing.held(0, LOG2)) > 33.0);
    assert_eq!(standing.held(0, GREATEST), standing.held(0, LOG2));
    assert_eq!(number(standing.held(0, LEAST)), 33.0 + 0.0004);
    assert_eq!(standing.quality(), "3F800000");
}

#[test]
fn ratios_without_end_and_of_zero() {
    let infinite = six(GREATEST_VALUE, f32::from_bits(1));
    assert_eq!(after(&[infinite.clone()]).held(0, LOG2), "43000EAC");
    let zero = after(&[six(0.0, 1.0)]);
    assert!(number(zero.held(0, LOG2)) > -10.0);
    assert_eq!(zero.log2(), MINIMUM);
    assert_eq!(after(&[infinite, six(-0.0, 1.0)]).quality(), "3F6E147B");
}

#[test]
fn sums_of_minus_zeros_show_nowhere() {
    let sum: f32 = [-0.0_f32; BANDS].iter().sum();
    assert_eq!(sum.to_bits(), 0x8000_0000);
    let text = |zero| after(&[blocks(5, zero, zero), blocks(4, zero, 1.0)]).text;
    assert_eq!(text(0.0), text(-0.0));
}

#[test]
fn the_least_channel_counts() {
    let start = Start {
        channels: 2,
        ..example_start()
    };
    let first_alone = flat(&[true, false], LOUD, 30.0, 1.0);
    let standing = Standing::after::<FullBand>(&start, &[(6, first_alone)]);
    assert_eq!(standing.log2(), MINIMUM);
    assert_ne!(number(standing.held(0, FIGURE)).to_bits(), MINIMUM);
    assert_eq!(
        (standing.held(0, HELD), standing.held(1, HELD)),
        ("99", "-6")
    );
    let qualities = &standing.fields("full ")[2..];
    assert_eq!(qualities, ["00000000", "absent"]);
}

#[test]
fn the_rounded_render_sum_decides() {
    let points = |call: &Call| {
        let standing = after(&[(1, call.clone())]);
        standing.held(0, HELD_POINTS).to_string()
    };
    // The rounded sum of 65 times T is above T times 65, rounded.
    assert_eq!(points(&converged(1, T, 3.0, 1.0)), "1");
    for (sum, counted) in [
        (SUM_T.next_down(), "0"),
        (SUM_T, "0"),
        (SUM_T.next_up(), "1"),
    ] {
        let mut call = converged(1, 0.0, 3.0, 1.0);
        call.render[64] = sum;
        assert_eq!(points(&call), counted);
        call.flags[0] = false;
        assert_eq!(points(&call), "0");
    }
}

/// The answer to one start.
fn start_answer(limits: [f32; 3], channels: u32) -> String {
    let start = Start::new(limits, 0b11, channels);
    let text = lines(|script| script.start::<FullBand>(&start));
    text.lines().next().unwrap().to_string()
}

#[test]
fn refused_starts_in_their_order() {
    for channels in 1..=4 {
        assert_eq!(start_answer([1.0, 1e5, 1e5], channels), "fullband start");
    }
    for limits in [[0.5, 4.0, 1.5], [1.0, f32::NAN, 1.5], [1.0, 4.0, 0.9]] {
        for channels in [1, 0] {
            let answer = start_answer(limits, channels);
            assert_eq!(answer, "fullband start refused 1");
        }
    }
    for channels in [0, 5, u32::MAX] {
        let answer = start_answer([1.0, 4.0, 1.5], channels);
        assert_eq!(answer, "fullband start refused 2");
    }
}

#[test]
fn refused_updates_in_their_order() {
    let figure = after(&[six(3.0, 1.0)]).log2();
    let answer = |call: &Call| {
        let standing = after(&[six(3.0, 1.0), (2, call.clone())]);
        assert_eq!(standing.log2(), figure);
        let mut lines = standing.text.lines();
        let answer = lines.rfind(|line| line.starts_with("fullband"));
        answer.unwrap().to_string()
    };
    let mut call = converged(1, LOUD, GREATEST_VALUE, -0.0);
    assert_eq!(answer(&call), "fullband ok");
    call.residual[64] = GREATEST_VALUE.next_up();
    assert_eq!(answer(&call), "fullband refused 6");
    call.flags[0] = false;
    assert_eq!(answer(&call), "fullband refused 6");
    call.capture.pop();
    assert_eq!(answer(&call), "fullband refused 5");
    call.channels = 2;
    assert_eq!(answer(&call), "fullband refused 21");
}

#[test]
fn each_estimator_stands_alone() {
    let call = converged(1, LOUD, 3.0, 1.0);
    let text = lines(|script| {
        script.reset::<FullBand>();
        script.start::<FullBand>(&Start::new([1.0, 4.0, 1.5], 0, 5));
        script.update::<FullBand>(&call);
        script.update::<Subband>(&call);
        script.start::<FullBand>(&example_start());
        script.repeat::<Subband>(3, &call);
        script.repeat::<FullBand>(3, &call);
    });
    let answers: Vec<&str> = text.lines().filter(|l| l.contains("band ")).collect();
    assert_eq!(
        answers,
        [
            "fullband none",
            "fullband start refused 2",
            "fullband none",
            "subband none",
            "fullband start",
            "subband none",
            "fullband ok"
        ]
    );
}

#[test]
fn malformed_bodies_end_the_run() {
    let call = converged(1, LOUD, 3.0, 1.0);
    let mut bodies = [example_start().fields(), example_start().fields()];
    bodies[0][3] = 2;
    bodies[1][4] = 2;
    let mut other_flag = call.body();
    other_flag[20] = 2;
    let damage: [&dyn Fn(&mut Script); 5] = [
        &|script| script.record(FullBand::START, &bodies[0]),
        &|script| script.record(FullBand::START, &bodies[1]),
        &|script| script.whole(FullBand::UPDATE, &other_flag),
        &|script| script.repeat::<FullBand>(0, &call),
        &|script| script.repeat::<FullBand>(65_536, &call),
    ];
    for damaged in damage {
        let text = lines(|script| {
            damaged(script);
            script.reset::<FullBand>();
        });
        assert_eq!(text, "bad\n");
    }
}

#[test]
fn the_scripts_hold_three_hundred_thousand_updates() {
    assert!(records_of_kind("fullband", FullBand::UPDATE) >= 300_000);
}

/// What the scripts reach, counted over all channels and records.
#[derive(Debug, Default)]
struct Reached {
    /// Present qualities below 0 and above 1, by the choice of the clamps.
    below: [usize; 4],
    above: [usize; 4],
    cleared_points: [usize; POINTS],
    new_extremes: [usize; 2],
    given_way: [usize; 2],
    minus_zeros: usize,
    least_hold: i32,
}

impl Reached {
    fn see(&mut self, start: &Start, before: &PeekedChannel, after: &PeekedChannel) {
        let switches = start.switches() as usize;
        self.below[switches] += (after.quality < 0.0) as usize;
        self.above[switches] += (after.quality > 1.0) as usize;
        self.minus_zeros += (after.quality.to_bits() == 0x8000_0000) as usize;
        self.least_hold = self.least_hold.min(after.hold);
        if after.hold == 0 && before.hold == 1 {
            self.cleared_points[before.points as usize] += 1;
        }
        self.new_extremes[0] += (after.greatest > before.greatest) as usize;
        self.given_way[0] += (after.greatest < before.greatest) as usize;
        self.new_extremes[1] += (after.least < before.least) as usize;
        self.given_way[1] += (after.least > before.least) as usize;
    }
}

/// Runs a record on the estimator that stands.
fn step(standing: &mut Option<(Start, FullBand)>, record: &Record<'_>) -> Result<(), Malformed> {
    let mut body = Fields::of(record);
    if record.kind == FullBand::START {
        let start = Start::read(body)?;
        *standing = FullBand::started(&start).ok().map(|new| (start, new));
    } else if let Some((_, estimator)) = standing {
        match record.kind {
            FullBand::RESET => estimator.reset(),
            kind => {
                let repeated = kind == FullBand::REPEAT;
                let times = if repeated { body.u32()? } else { 1 };
                estimator.repeat(times, &Call::read(body)?).ok();
            }
        }
    }
    Ok(())
}

fn held(standing: &Option<(Start, FullBand)>) -> Vec<PeekedChannel> {
    match standing {
        Some((start, e)) => (0..start.channels as usize)
            .map(|c| peek_channel(e, c))
            .collect(),
        None => Vec::new(),
    }
}

#[test]
fn the_scripts_reach_what_they_are_for() {
    let mut reached = Reached::default();
    for make in named("fullband").unwrap().scripts() {
        let script = make();
        let mut rest = &script.bytes[..];
        let mut standing = None;
        while let Ok(record) = take_record(&mut rest) {
            let before = held(&standing);
            step(&mut standing, &record).unwrap();
            if record.kind == FullBand::UPDATE {
                for (before, after) in before.iter().zip(&held(&standing)) {
                    reached.see(&standing.as_ref().unwrap().0, before, after);
                }
            }
        }
    }
    let enough = |counts: &[usize], least| counts.iter().all(|&count| count >= least);
    let all = enough(&reached.below, 500)
        && enough(&reached.above, 5_000)
        && enough(&reached.cleared_points, 50)
        && enough(&reached.new_extremes, 10_000)
        && enough(&reached.given_way, 10_000)
        && reached.least_hold <= HOLD as i32 - 3 * 65_535;
    assert!(all, "{reached:?}");
    // None was met; document 01 says what the clamp does with one.
    assert_eq!(reached.minus_zeros, 0);
}
