//! The watcher says so where a figure is out of its bounds, and looks at all of
//! them.

use super::estimators::Watched;
use super::inputs::{watch, watch_listing};
use super::limits::Limits;
use super::seen::{Bounds, Seen, FINITE};
use super::{judged, names};
use crate::audio_processing::aec3::signal_dependent_erle_estimator::{
    peek_subband_map, peek_subband_maxima,
};
use crate::judge::{BANDS, GREATEST_ERLE};
use crate::kinds::erle::{Erle, Start};
use crate::kinds::fullband::{self, FullBand};
use crate::kinds::part::Settings;
use crate::kinds::signal::Signal;
use crate::kinds::standing::{Estimator, Started};
use crate::kinds::subband::{self, Subband};
use crate::program::Program;
use crate::scripts::erle::{start, whole, with_echo};
use crate::scripts::part::{converged, POINTS, SETTINGS};
use crate::scripts::spectra::LOUD;
use crate::scripts::Script;

/// Limits in which no figure lies.
const NONE_FITS: [f32; 3] = [2.0 * GREATEST_ERLE, 1.0, 1.0];

fn limits(limits: [f32; 3]) -> Limits {
    Limits::of(&subband::Start::new(limits, 0, 1))
}

/// Whether a figure is told to be out of its bounds.
fn told(figure: f32, bounds: &Bounds) -> bool {
    let mut seen = Seen::default();
    seen.see("figure", 0, &[figure], |_| bounds.clone());
    assert_eq!(seen.out.is_some(), seen.outside() == 1);
    seen.out.is_some()
}

#[test]
fn a_figure_one_step_out_of_bounds_is_told() {
    for settings in SETTINGS {
        let limits = limits(settings);
        let mut all = vec![limits.uncapped(), limits.minimum(), limits.log2(), FINITE];
        all.extend([0, 31, 32, 64].map(|band| limits.band(band)));
        all.extend([0, 3, 4, 5].map(|subband| limits.subband(subband)));
        all.extend([0, 3, 4, 5].map(|subband| limits.factor(subband)));
        for bounds in all {
            let (least, greatest) = (*bounds.start(), *bounds.end());
            for figure in [least, greatest] {
                assert!(!told(figure, &bounds), "{figure} {bounds:?}");
            }
            let beside = [least.next_down(), greatest.next_up()];
            let endless = [f32::NAN, -f32::NAN, f32::INFINITY, f32::NEG_INFINITY];
            for figure in [&beside[..], &endless].concat() {
                assert!(told(figure, &bounds), "{figure} {bounds:?}");
            }
        }
    }
}

#[test]
fn the_bounds_of_settings() {
    let limits = limits([2.0, 8.0, 30.0]);
    let maxima = peek_subband_maxima(8.0, 30.0);
    for (band, subband) in peek_subband_map().into_iter().enumerate() {
        let bounds = 2.0..=if band < 32 { 8.0 } else { 30.0 };
        assert_eq!(limits.band(band), bounds);
        for section in 0..8 {
            assert_eq!(limits.subband(6 * section + subband), bounds);
        }
        assert_eq!(*bounds.end(), maxima[subband]);
    }
    assert_eq!(limits.factor(0), 0.25..=4.0);
    assert_eq!(limits.factor(11), 2.0 / 30.0..=15.0);
    assert_eq!(limits.minimum(), 2.0..=2.0);
    assert_eq!(limits.uncapped(), 2.0..=100_000.0);
    for settings in SETTINGS {
        let estimator = FullBand::started(&fullband::Start::new(settings, 0, 1)).unwrap();
        let figure = estimator.fullband_erle_log2();
        assert_eq!(*self::limits(settings).log2().start(), figure);
    }
}

/// An estimator looked at with another start than its own.
fn seen_with<E: Watched>(start: E::Start, estimator: E) -> Seen {
    let mut seen = Seen::default();
    E::look(&Started { start, estimator }, &mut seen);
    seen
}

/// The counts at a start, looked at with another.
fn counts_with<E: Watched>(start: E::Start, own: &E::Start) -> Counts {
    counts(&seen_with(start, E::started(own).unwrap()))
}

/// Of each name of figures how many were seen, and how many out of bounds.
type Counts = Vec<(&'static str, usize, usize)>;

fn counts(seen: &Seen) -> Counts {
    let extents = seen.extents.iter();
    let counts = extents.map(|(name, extent)| (*name, extent.count, extent.outside));
    counts.collect()
}

/// What is counted of streams and lists where all of them are out of bounds, and
/// of the fullband figures of three channels, where those that need only be finite are not.
fn none_fits(lists: &[(&'static str, usize)], full: bool) -> Counts {
    let mut wanted: Vec<_> = lists.iter().map(|&(name, n)| (name, n, n)).collect();
    if full {
        wanted.extend([("figure", 3, 3), ("least figure", 1, 1)]);
        wanted.extend(["greatest", "quality", "smallest"].map(|name| (name, 3, 0)));
        wanted.push(("answered quality", 0, 0));
    }
    wanted.sort();
    wanted
}

const STREAM: usize = 3 * BANDS;
const WHOLE: [&str; 4] = ["plain", "comp", "unb", "onsets"];
const SUBBAND: [&str; 4] = ["subplain", "rawcomp", "subunb", "subonsets"];
const SIGNAL: [(&str, usize); 5] = [
    ("sigplain", STREAM),
    ("sigcomp", STREAM),
    ("reference", 3 * 6),
    ("estimates", 3 * 4 * 6),
    ("factors", 3 * 4 * 6),
];

#[test]
fn all_figures_of_all_channels_bands_and_sections_are_watched() {
    let sound = |sections| start(0, SETTINGS[0], 3, [sections, 16, 0]);
    let none = |sections| start(0, NONE_FITS, 3, [sections, 16, 0]);
    let streams = |names: [&'static str; 4]| names.map(|name| (name, STREAM));
    let mut lists = [streams(WHOLE), streams(SUBBAND)].concat();
    let seen = counts_with::<Erle>(none(1), &sound(1));
    assert_eq!(seen, none_fits(&lists, true));
    lists.extend(SIGNAL);
    let seen = counts_with::<Erle>(none(4), &sound(4));
    assert_eq!(seen, none_fits(&lists, true));
    let seen = counts_with::<Signal>(none(4).signal, &sound(4).signal);
    assert_eq!(seen, none_fits(&SIGNAL, false));
    let (sound, none) = (sound(1).signal.settings, none(1).signal.settings);
    let seen = counts_with::<Subband>(none, &sound);
    assert_eq!(seen, none_fits(&streams(SUBBAND), false));
    let full = |limits| fullband::Start::new(limits, 3, 3);
    let seen = counts_with::<FullBand>(full(NONE_FITS), &full(SETTINGS[0]));
    assert_eq!(seen, none_fits(&[], true));
}

/// The names of which figures were out of bounds.
fn names_outside(seen: &Seen) -> Vec<&'static str> {
    let extents = seen.extents.iter();
    let outside = extents.filter(|(_, extent)| extent.outside > 0);
    outside.map(|(name, _)| *name).collect()
}

/// An estimator that has learnt is looked at with maxima that are the minimum.
#[test]
fn what_the_maxima_bound() {
    for sections in [1, 2] {
        let start = |limits| start(0, limits, 1, [sections, 2, 0]);
        let own = start(SETTINGS[0]);
        let mut erle = Erle::started(&own).unwrap();
        for turn in 0..60 {
            let section = turn % sections as usize;
            let lesson = own.signal.lesson(section, 2.0 + 4.0 * section as f32);
            assert!(erle.repeat(1, &whole(&lesson)).is_ok());
        }
        let mut wanted = vec!["plain", "comp", "subplain", "rawcomp"];
        if sections == 2 {
            wanted.push("unb");
            wanted.extend(SIGNAL.map(|(name, _)| name));
        }
        wanted.sort();
        assert_eq!(names_outside(&seen_with(start([1.0; 3]), erle)), wanted);
    }
}

/// A quality above 1, which is in bounds unless both clamps are on.
#[test]
fn qualities_are_bounded_where_both_clamps_are_on() {
    for switches in 0..4 {
        let part = |switches| fullband::Start::new(SETTINGS[0], switches, 1);
        let all = |switches| Start {
            to_zero: part(switches).to_zero,
            to_one: part(switches).to_one,
            ..start(0, SETTINGS[0], 1, [1, 1, 0])
        };
        let mut fullband = FullBand::started(&part(0)).unwrap();
        let mut erle = Erle::started(&all(0)).unwrap();
        let echo = whole(&all(0).signal.lesson(0, 1.0));
        for ratio in [6.0, 3.0, 6.0, 6.0] {
            let block = converged(1, LOUD, ratio, 1.0);
            assert!(fullband.repeat(POINTS as u32, &block).is_ok());
            let block = with_echo(&block, &echo);
            assert!(erle.repeat(POINTS as u32, &block).is_ok());
        }
        let seen = seen_with(part(switches), fullband);
        let wanted: &[&str] = if switches == 3 {
            &["answered quality"]
        } else {
            &[]
        };
        assert_eq!(names_outside(&seen), wanted);
        assert_eq!(names_outside(&seen_with(all(switches), erle)), wanted);
        assert_eq!(seen.extent("answered quality").count, 1);
    }
}

/// The looks at a script of a program, which finds nothing out of bounds.
fn looks(program: Program, fill: impl Fn(&mut Script)) -> usize {
    let mut script = Script::default();
    fill(&mut script);
    let mut seen = Seen::default();
    assert_eq!(watch(program, &script.bytes, &mut seen), None);
    seen.looks
}

#[test]
fn each_call_of_an_estimator_that_stands_is_looked_at() {
    let sound = subband::Start::new(SETTINGS[0], 1, 1);
    let block = converged(1, LOUD, 3.0, 1.0);
    let fill = |script: &mut Script| {
        script.update::<Subband>(&block);
        script.start::<Subband>(&sound);
        script.update::<Subband>(&converged(1, LOUD, -1.0, 1.0));
        script.repeat::<Subband>(5, &block);
        script.reset::<Subband>();
        script.start::<Subband>(&subband::Start::new(NONE_FITS, 1, 1));
        script.update::<Subband>(&block);
    };
    assert_eq!(looks(Program::ReplayParts, fill), 8);
    assert_eq!(looks(Program::Replay, fill), 0);
}

#[test]
fn other_kinds_are_run_and_a_bad_record_ends_the_script() {
    let fill = |script: &mut Script| {
        script.log2(0x3F80_0000);
        script.start::<Erle>(&start(0, SETTINGS[0], 1, [2, 2, 0]));
        script.erl_start(1);
        script.start::<Signal>(&start(0, SETTINGS[0], 1, [2, 2, 0]).signal);
        script.record(0x0FFF, &[]);
        script.reset::<Signal>();
    };
    assert_eq!(looks(Program::Replay, fill), 2);
}

#[test]
fn rows_out_of_bounds_are_told() {
    let listing = |figure: &str| {
        format!("header\n1 0 3F800000 3F800000 47C35000\n1 3 3F800000 {figure} 3F800000\nrefused 6 at 3\n")
    };
    for inside in ["3F800000", "47C35000"] {
        let mut seen = Seen::default();
        assert_eq!(watch_listing(&listing(inside), &mut seen), None);
        assert_eq!(seen.looks, 2);
    }
    for outside in ["3F7FFFFF", "47C35001", "7FC00000", "FFC00000", "7F800000"] {
        let first = watch_listing(&listing(outside), &mut Seen::default()).unwrap();
        assert!(first.starts_with("row 2: compensated 3, place 0: "));
    }
}

#[test]
fn what_is_watched() {
    let watched: Vec<&str> = names().map(|name| name.name).collect();
    let scripts = ["erle", "signal", "subband", "fullband"];
    let scripts = scripts.map(|name| [name.to_string(), format!("damaged_{name}")]);
    let traces = "sample shown longer random cuts damaged pieces".split(' ');
    let traces = traces.map(|name| format!("trace_{name}"));
    assert_eq!(watched, [scripts.concat(), traces.collect()].concat());
}

#[test]
fn a_name_passes_only_if_something_was_looked_at_and_all_of_it_in_bounds() {
    let name = names().next().unwrap();
    let one = Seen {
        looks: 1,
        ..Seen::default()
    };
    assert!(judged(name, &one, None).is_ok());
    assert!(judged(name, &Seen::default(), None).is_err());
    assert!(judged(name, &one, Some("a figure".to_string())).is_err());
}
