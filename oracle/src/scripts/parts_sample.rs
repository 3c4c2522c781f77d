//! The stored sample of the program of the parts: the subband estimator first,
//! then the fullband one, then both by turns, and a record cut short at the end.

use super::part::{converged, SETTINGS};
use super::{fullband, subband, Script};
use crate::kinds::fullband::{self as fullband_kinds, FullBand};
use crate::kinds::part::Settings;
use crate::kinds::subband::Subband;
use crate::scripts::spectra::LOUD;

pub fn script() -> Script {
    let script = subband::sample::add(Script::default());
    let mut script = fullband::sample::add(script);
    both(&mut script);
    script.reset::<Subband>();
    script.bytes.pop();
    script
}

/// Each estimator stands by itself: what one is asked does not touch the other.
fn both(script: &mut Script) {
    let call = converged(1, LOUD, 3.0, 1.0);
    let refused = fullband_kinds::Start::new(SETTINGS[0], 0, 5);
    script.start::<Subband>(&subband::example_start());
    script.start::<FullBand>(&fullband::example_start());
    script.repeat::<Subband>(5, &call);
    script.repeat::<FullBand>(4, &call);
    script.update::<Subband>(&call);
    script.start::<FullBand>(&refused);
    script.update::<FullBand>(&call);
    script.update::<Subband>(&call);
    script.start::<FullBand>(&fullband::example_start());
    script.reset::<Subband>();
    script.repeat::<FullBand>(6, &call);
    script.repeat::<Subband>(6, &call);
}
