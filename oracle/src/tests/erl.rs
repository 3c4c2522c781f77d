//! Readings of the ERL steps, asked of the published Rust.

use super::{lines, number, records_of_kind};
use crate::judge::BANDS;
use crate::kinds::erl::{Call, UPDATE};
use crate::record::Body;
use crate::scripts::erl::{call, flat};
use crate::scripts::spectra::{LOUD, T};
use crate::scripts::sums::SUM_T;
use crate::scripts::Script;

/// The figures after a script's last call: band 32 and the time domain.
fn last_figures(fill: impl Fn(&mut Script)) -> (f32, f32) {
    let text = lines(fill);
    let figures: Vec<&str> = text.lines().last().unwrap().split(' ').collect();
    assert_eq!(figures.len(), 1 + BANDS + 1);
    (number(figures[1 + 32]), number(figures[1 + BANDS]))
}

/// The figures after a start and these calls.
fn after(startup: u32, calls: &[Call]) -> (f32, f32) {
    last_figures(|script| {
        script.erl_start(startup);
        calls.iter().for_each(|call| script.erl_update(call));
    })
}

/// A call that moves 1,000 to 900.
fn silent() -> Call {
    flat(&[true], &[LOUD], &[0.0])
}

/// A processed call in which no figure moves.
fn quiet() -> Call {
    flat(&[true], &[0.0], &[0.0])
}

#[test]
fn the_startup_count_is_raised_first() {
    for startup in [0, 1] {
        assert_eq!(after(startup, &[silent()]), (900.0, 900.0));
    }
    assert_eq!(after(2, &[silent()]), (1_000.0, 1_000.0));
    assert_eq!(after(2, &[silent(), silent()]), (900.0, 900.0));
}

#[test]
fn unconverged_blocks_leave_the_holds() {
    let unconverged = flat(&[false], &[LOUD], &[0.0]);
    let mut calls = vec![silent()];
    calls.resize(2_001, unconverged);
    assert_eq!(after(0, &calls), (900.0, 900.0));
}

#[test]
fn channels_are_reduced_to_their_greatest() {
    let first_unconverged = flat(&[false, true], &[LOUD], &[4e9, 0.0]);
    assert_eq!(after(0, &[first_unconverged]), (900.0, 900.0));
    let two_renders = flat(&[true], &[3e7, 3e7], &[0.0]);
    assert_eq!(after(0, &[two_renders]), (1_000.0, 1_000.0));
}

#[test]
fn thresholds_are_exceeded_not_reached() {
    // The rounded sum of 65 times T is above T times 65, rounded.
    assert_eq!(T * 65.0, SUM_T);
    assert_eq!(after(0, &[flat(&[true], &[T], &[0.0])]), (1_000.0, 900.0));
    let mut spectrum = [0.0; BANDS];
    spectrum[32] = T.next_up();
    let one_band = call(&[true], &[spectrum], &[[0.0; BANDS]]);
    assert_eq!(after(0, &[one_band]), (900.0, 1_000.0));
    for (sum, time_domain) in [(SUM_T, 1_000.0), (SUM_T.next_up(), 900.0)] {
        let mut spectrum = [0.0; BANDS];
        spectrum[0] = sum;
        let sum_only = call(&[true], &[spectrum], &[[0.0; BANDS]]);
        assert_eq!(after(0, &[sum_only]), (1_000.0, time_domain));
    }
}

#[test]
fn doubling_on_the_thousandth_processed_update() {
    let low = after(0, &vec![silent(); 20]);
    let mut calls = vec![silent(); 20];
    calls.resize(20 + 998, quiet());
    assert_eq!(after(0, &calls), low);
    calls.push(quiet());
    assert_eq!(after(0, &calls), (2.0 * low.0, 2.0 * low.1));
    calls.push(quiet());
    assert_eq!(after(0, &calls), (4.0 * low.0, 4.0 * low.1));
    calls.resize(1_100, quiet());
    assert_eq!(after(0, &calls), (1_000.0, 1_000.0));
}

#[test]
fn a_reset_clears_the_block_count_only() {
    let (kept, _) = last_figures(|script| {
        script.erl_start(3);
        (0..3).for_each(|_| script.erl_update(&silent()));
        script.erl_reset();
        script.erl_update(&silent());
    });
    assert_eq!(kept, 900.0);
}

#[test]
fn refused_calls_are_not_counted() {
    let mut spoilt = silent();
    spoilt.capture[64] = f32::NAN;
    let calls = [spoilt.clone(), spoilt, silent()];
    assert_eq!(after(2, &calls), (1_000.0, 1_000.0));
}

#[test]
fn refusals_in_their_order() {
    let answer = |call: &Call| {
        let text = lines(|script| {
            script.erl_start(0);
            script.erl_update(call);
        });
        text.lines().nth(2).unwrap().to_string()
    };
    let mut call = flat(&[true, true], &[LOUD], &[-0.0, 2_f32.powi(100)]);
    assert_eq!(answer(&call), "erl ok");
    call.render[0] = 2_f32.powi(100).next_up();
    assert_eq!(answer(&call), "erl refused 6");
    call.flags.pop();
    assert_eq!(answer(&call), "erl refused 5");
    call.renders = 3;
    assert_eq!(answer(&call), "erl refused 2");
}

#[test]
fn nothing_stands_before_a_start() {
    let text = lines(|script| {
        script.erl_reset();
        script.erl_update(&silent());
    });
    assert_eq!(text, "erl none\nerl none\n");
}

#[test]
fn a_flag_byte_above_one_is_malformed() {
    let text = lines(|script| {
        let mut body = silent().body();
        body[20] = 2;
        script.whole(UPDATE, &body);
        script.erl_reset();
    });
    assert_eq!(text, "bad\n");
}

#[test]
fn the_scripts_hold_two_hundred_thousand_updates() {
    assert!(records_of_kind("erl", UPDATE) >= 200_000);
}
