//! The bounds that the settings of a start put on its figures.

use super::seen::Bounds;
use crate::audio_processing::aec3::aec3_common::fast_approx_log2f;
use crate::judge::GREATEST_ERLE;
use crate::kinds::part::Settings;

/// The first band whose maximum is max_h.
const FIRST_HIGH_BAND: usize = 32;

/// The first band of each subband.
const FIRST_BANDS: [usize; 6] = [1, 8, 16, 24, 32, 48];

/// What is added to a ratio before its log2 is taken.
const EPSILON: f32 = 0.001;

pub struct Limits {
    min: f32,
    max_l: f32,
    max_h: f32,
}

impl Limits {
    pub fn of(settings: &impl Settings) -> Self {
        let [min, max_l, max_h] = settings.limits();
        Self { min, max_l, max_h }
    }

    /// The minimum to the maximum of a band.
    pub fn band(&self, band: usize) -> Bounds {
        let high = band >= FIRST_HIGH_BAND;
        self.min..=if high { self.max_h } else { self.max_l }
    }

    /// The minimum to the greatest maximum that a start may set.
    pub fn uncapped(&self) -> Bounds {
        self.min..=GREATEST_ERLE
    }

    /// The minimum alone.
    pub fn minimum(&self) -> Bounds {
        self.min..=self.min
    }

    /// The minimum to the maximum of a subband, for a place in a list that has six
    /// numbers for each section.
    pub fn subband(&self, place: usize) -> Bounds {
        self.band(FIRST_BANDS[place % FIRST_BANDS.len()])
    }

    /// What one figure of a subband, divided by another, may be.
    pub fn factor(&self, place: usize) -> Bounds {
        let (min, max) = self.subband(place).into_inner();
        min / max..=max / min
    }

    /// A fullband figure is finite, and not below that of a start.
    pub fn log2(&self) -> Bounds {
        fast_approx_log2f(self.min + EPSILON)..=f32::MAX
    }
}
