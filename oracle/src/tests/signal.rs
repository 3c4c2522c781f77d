//! Readings of the signal-dependent steps, asked of the published Rust.

mod reached;

use super::echo_calls::{at_most_sixteen_counts, refused_in_order};
use super::{lines, Standing};
use crate::judge::{BANDS, GREATEST_VALUE};
use crate::kinds::signal::{Call, Signal, Start, COMPENSATED, PLAIN};
use crate::kinds::standing::Estimator;
use crate::record::Body;
use crate::scripts::signal::calls::{blocks_with, flat, only_block, SUBBANDS};
use crate::scripts::signal::{example_start, start, UPDATES_WITHOUT_FACTOR};
use crate::scripts::spectra::{Spectrum, LOUD, T};
use crate::scripts::Script;

/// Averages of 2 times the factor that the example's second section learns, and
/// times that of the first.
const SECOND: u32 = 0x3FCE_42A5;
const FIRST: u32 = 0x4000_0000;

/// After a start and these calls, each so many times.
fn after(start: &Start, calls: &[(usize, Call)]) -> Standing {
    Standing::after_updates::<Signal>(start, calls)
}

/// A converged call on a ring of four ones, with a ratio of 4 and averages of 2.
fn answered(response: &[Spectrum]) -> Call {
    let call = flat(&[true], [LOUD, 4.0, 1.0], 2.0).on_ones(4);
    call.answering(&[response.to_vec()])
}

/// The example: 40 updates of the first section, then 20 of the last block's.
fn lessons(last: usize, changed: impl Fn(&mut Call)) -> Vec<(usize, Call)> {
    let mut calls = [
        (40, answered(&only_block(0))),
        (20, answered(&only_block(last))),
    ];
    calls.iter_mut().for_each(|(_, call)| changed(call));
    calls.to_vec()
}

/// What an unconverged call shows after these lessons.
fn shown(start: &Start, lessons: &[(usize, Call)], call: Call) -> Standing {
    let mut calls = lessons.to_vec();
    calls.push((1, call.unconverged()));
    after(start, &calls)
}

/// The bits of a band, in both streams, that a call shows after the example.
fn band_shown(band: usize, call: Call) -> u32 {
    let standing = shown(&example_start(), &lessons(3, |_| ()), call);
    let plain = standing.band("sigplain", band);
    assert_eq!(standing.band("sigcomp", band), plain);
    plain
}

#[test]
fn the_active_section_shows() {
    for (block, bits) in [(0, FIRST), (1, FIRST), (2, SECOND), (3, SECOND)] {
        for band in [0, 1, 20, 31] {
            assert_eq!(band_shown(band, answered(&only_block(block))), bits);
        }
        assert_eq!(band_shown(32, answered(&only_block(block))), 0x3FC0_0000);
    }
}

#[test]
fn factors_move_from_the_fifty_first_update_on() {
    let seen = |more| {
        let calls = [
            (40, answered(&only_block(0))),
            (more, answered(&only_block(3))),
        ];
        after(&example_start(), &calls).band("sigplain", 20)
    };
    assert_eq!(seen(UPDATES_WITHOUT_FACTOR - 40), FIRST);
    assert_eq!(seen(UPDATES_WITHOUT_FACTOR - 39), 0x3FF5_EE33);
}

#[test]
fn band_64_counts_for_the_last_subband_and_band_0_for_none() {
    let start = start([1.0, 4.0, 4.0], true, 1, [2, 4, 0]);
    let learnt_by = |band: usize| {
        let lessons = lessons(3, |call| {
            call.render.fill(0.0);
            call.render[band] = 1e12;
        });
        shown(&start, &lessons, answered(&only_block(3)))
    };
    let by_last = learnt_by(64);
    assert_eq!(by_last.band("sigplain", 50), SECOND);
    assert_eq!(by_last.band("sigplain", 20), FIRST);
    let by_first = learnt_by(0);
    (0..32).for_each(|band| assert_eq!(by_first.band("sigplain", band), FIRST));
}

#[test]
fn an_echo_is_a_product_of_sums() {
    let ring = [1.0, 0.0, 0.0, 1.0].map(|value| [value; BANDS]);
    let response = blocks_with(&[(1, 1.0), (3, 0.05)]);
    let call = answered(&response).on_ring(1, 0, &ring);
    assert_eq!(band_shown(20, call), FIRST);
}

#[test]
fn renders_are_halved_before_they_are_added() {
    for (renders, bits) in [(2, FIRST), (1, SECOND)] {
        let ones = vec![[1.0; BANDS]; 4 * renders];
        let lessons = lessons(3, |call| *call = call.clone().on_ring(renders, 0, &ones));
        let mut ring = vec![[0.0; BANDS]; 4 * renders];
        ring[3 * renders..].fill([f32::from_bits(1); BANDS]);
        let call = answered(&blocks_with(&[(3, GREATEST_VALUE)])).on_ring(renders, 0, &ring);
        let standing = shown(&example_start(), &lessons, call);
        assert_eq!(standing.band("sigplain", 20), bits);
    }
}

#[test]
fn responses_count_from_block_0_and_the_ring_from_the_headroom() {
    let start = Start {
        length_blocks: 5,
        headroom_samples: 64,
        ..example_start()
    };
    let mut lessons = lessons(4, |_| ());
    lessons[0].1 = answered(&only_block(1));
    let show = |response: &[(usize, f32)], ring: [f32; 4]| {
        let call = answered(&blocks_with(response));
        let call = call.on_ring(1, 0, &ring.map(|value| [value; BANDS]));
        shown(&start, &lessons, call).band("sigplain", 20)
    };
    assert_eq!(show(&[(0, 100.0), (4, 1.0)], [1.0; 4]), SECOND);
    assert_eq!(show(&[(1, 1.0), (4, 100.0)], [0.0, 1.0, 0.0, 0.0]), FIRST);
    assert_eq!(show(&[(1, 1.0), (4, 100.0)], [1.0, 0.0, 0.0, 0.0]), SECOND);
}

#[test]
fn nine_tenths_of_the_total_are_reached() {
    let show = |response: &[(usize, f32)]| band_shown(20, answered(&blocks_with(response)));
    assert_eq!(show(&[(0, 9.0), (3, 1.0)]), FIRST);
    assert_eq!(show(&[(0, 8.9), (3, 1.1)]), SECOND);
    assert_eq!(show(&[(0, 0.0), (3, 0.0)]), FIRST);
    assert_eq!(show(&[]), FIRST);
}

#[test]
fn echoes_may_be_infinite() {
    let greatest = blocks_with(&[(0, GREATEST_VALUE), (3, GREATEST_VALUE)]);
    for (first, bits) in [(GREATEST_VALUE, FIRST), (1.0, SECOND)] {
        let ring = [first, 1.0, 1.0, GREATEST_VALUE].map(|value| [value; BANDS]);
        let call = answered(&greatest).on_ring(1, 0, &ring);
        assert_eq!(band_shown(20, call), bits);
    }
}

#[test]
fn subband_sums_of_the_render_exceed_the_threshold() {
    let learnt = |render: Vec<f32>| {
        let lessons = lessons(3, |call| call.render = render.clone());
        shown(&example_start(), &lessons, answered(&only_block(3))).band("sigplain", 20)
    };
    let first_bands = |level| {
        let mut render = vec![0.0; BANDS];
        SUBBANDS[..6].iter().for_each(|&band| render[band] = level);
        render
    };
    assert_eq!(learnt(vec![1e7; BANDS]), SECOND);
    assert_eq!(learnt(first_bands(T)), FIRST);
    assert_eq!(learnt(first_bands(T.next_up())), SECOND);
}

#[test]
fn the_least_active_section_learns_and_each_bands_own_shows() {
    let mut mixture = only_block(3);
    (mixture[0][1], mixture[3][1]) = (1.0, 0.0);
    assert_eq!(band_shown(1, answered(&mixture)), FIRST);
    assert_eq!(band_shown(5, answered(&mixture)), SECOND);
    let mut lessons = lessons(3, |_| ());
    lessons[1].1 = answered(&mixture);
    let standing = shown(&example_start(), &lessons, answered(&mixture));
    for band in [1, 5] {
        assert_eq!(standing.band("sigplain", band), FIRST);
    }
}

#[test]
fn averages_outside_the_limits_are_clamped() {
    let start = start([2.0, 4.0, 8.0], true, 1, [2, 4, 0]);
    for (average, low, high) in [
        (GREATEST_VALUE, 4.0_f32, 8.0_f32),
        (5.0, 4.0, 5.0),
        (3.0, 3.0, 3.0),
        (f32::from_bits(1), 2.0, 2.0),
        (-0.0, 2.0, 2.0),
    ] {
        let call = flat(&[false], [0.0; 3], average);
        let standing = after(&start, &[(1, call)]);
        for name in ["sigplain", "sigcomp"] {
            assert_eq!(standing.band(name, 31), low.to_bits());
            assert_eq!(standing.band(name, 64), high.to_bits());
        }
    }
}

#[test]
fn the_compensated_stream_has_its_own_averages_if_onsets_are_detected() {
    let mut call = flat(&[false], [0.0; 3], 3.0);
    call.averages[COMPENSATED].fill(2.0);
    call.averages[PLAIN][64] = 1.0;
    for (onset, bits) in [(true, 2_f32), (false, 3.0)] {
        let start = start([1.0, 4.0, 4.0], onset, 1, [2, 4, 0]);
        let standing = after(&start, &[(1, call.clone())]);
        assert_eq!(standing.band("sigplain", 64), 3_f32.to_bits());
        assert_eq!(standing.band("sigcomp", 64), bits.to_bits());
    }
}

#[test]
fn one_section_is_judged_and_changes_nothing() {
    let start = start([1.0, 4.0, 1.5], true, 1, [1, 4, 256]);
    let good = answered(&only_block(3));
    let refused = |changed: &dyn Fn(&mut Call)| {
        let mut call = good.clone();
        changed(&mut call);
        let standing = after(&start, &[(60, good.clone()), (1, call)]);
        assert_eq!(standing.band("sigplain", 20), 1_f32.to_bits());
        standing.answer()
    };
    assert_eq!(refused(&|_| ()), "ok");
    assert_eq!(refused(&|call| call.ring[0] = -1.0), "refused 6");
    assert_eq!(refused(&|call| call.place = 4), "refused 9");
    assert_eq!(
        refused(&|call| *call = call.clone().on_ones(3)),
        "refused 4"
    );
}

impl Standing {
    /// The last answer.
    fn answer(&self) -> String {
        self.answer_of("signal")
    }
}

#[test]
fn refused_starts_in_their_order() {
    let answer =
        |limits, channels, filter| after(&start(limits, true, channels, filter), &[]).answer();
    let limits = [1.0, 4.0, 1.5];
    assert_eq!(answer(limits, 4, [8, 16, 512]), "start");
    assert_eq!(answer(limits, 4, [8, 16, 575]), "start");
    assert_eq!(answer(limits, 4, [8, 16, 576]), "start refused 3");
    assert_eq!(answer(limits, 1, [1, 1, 1_024]), "start");
    assert_eq!(answer(limits, 1, [1, 1, 1_025]), "start refused 3");
    assert_eq!(answer(limits, 5, [9, 17, 1_025]), "start refused 2");
    assert_eq!(
        answer([1.0, 0.5, 1.5], 5, [9, 17, 1_025]),
        "start refused 1"
    );
}

#[test]
fn refused_updates_in_their_order() {
    let start = start([1.0, 4.0, 1.5], true, 2, [2, 4, 128]);
    let call = flat(&[true, true], [LOUD, GREATEST_VALUE, -0.0], 0.0).on_ones(2);
    refused_in_order(
        call.answering(&[only_block(3), Vec::new()]),
        |call| call.averages[COMPENSATED][129] = f32::NAN,
        |call| after(&start, &[(2, call.clone())]).answer(),
    );
}

#[test]
fn counts_are_judged_before_they_are_added() {
    let start = start([1.0, 4.0, 1.5], true, 2, [2, 4, 0]);
    let good = flat(&[true, true], [LOUD, 3.0, 1.0], 2.0);
    let answer = |counts: [u32; 2], blocks: usize| {
        let call = Call {
            response_blocks: counts.to_vec(),
            responses: vec![1.0; BANDS * blocks],
            ..good.clone()
        };
        after(&start, &[(1, call)]).answer()
    };
    assert_eq!(answer([4, 4], 8), "ok");
    assert_eq!(answer([4, 3], 8), "refused 5");
    assert_eq!(answer([5, 3], 8), "refused 5");
    assert_eq!(answer([1 << 31, (1 << 31) + 1], 1), "refused 5");
    assert_eq!(answer([u32::MAX, 5], 4), "refused 5");
}

#[test]
fn at_most_sixteen_response_block_counts_are_said() {
    at_most_sixteen_counts::<Signal>(&example_start(), 11);
}

#[test]
fn malformed_bodies_end_the_run() {
    let mut fields = example_start().fields();
    fields[3] = 2;
    let good = answered(&only_block(3)).body();
    let mut other_flag = good.clone();
    other_flag[48] = 2;
    let mut longer = good.clone();
    longer.push(0);
    let ends = |fill: &dyn Fn(&mut Script)| {
        lines(|script| {
            fill(script);
            script.reset::<Signal>();
        })
    };
    assert_eq!(
        ends(&|script| script.record(Signal::START, &fields)),
        "bad\n"
    );
    for body in [&other_flag, &longer] {
        assert_eq!(ends(&|script| script.whole(Signal::UPDATE, body)), "bad\n");
    }
    assert_eq!(ends(&|script| script.record(Signal::RESET, &[0])), "bad\n");
    let none = ends(&|script| script.whole(Signal::UPDATE, &good));
    assert_eq!(none, "signal none\nsignal none\n");
}

#[test]
fn a_refused_start_leaves_none() {
    let refused = start([1.0, 4.0, 1.5], true, 1, [5, 4, 0]);
    let text = lines(|script| {
        script.start::<Signal>(&example_start());
        script.start::<Signal>(&refused);
        script.reset::<Signal>();
    });
    let answers: Vec<&str> = text.lines().filter(|l| l.starts_with("signal")).collect();
    assert_eq!(
        answers,
        ["signal start", "signal start refused 3", "signal none"]
    );
}
