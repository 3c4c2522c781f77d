//! What was seen of the figures: how many, their least and greatest, and the first
//! of them that is out of its bounds.

use crate::lines::Hex;
use std::collections::BTreeMap;
use std::fmt;
use std::ops::RangeInclusive;

/// The least and the greatest that a figure may be. A NaN lies in no bounds.
pub type Bounds = RangeInclusive<f32>;

/// Every number but the infinite ones.
pub const FINITE: Bounds = f32::MIN..=f32::MAX;

/// The figures of one name.
#[derive(Debug, Clone, Copy)]
pub struct Extent {
    pub least: f32,
    pub greatest: f32,
    pub count: usize,
    /// How many of them are out of their bounds.
    pub outside: usize,
}

impl Default for Extent {
    fn default() -> Self {
        Self {
            least: f32::INFINITY,
            greatest: f32::NEG_INFINITY,
            count: 0,
            outside: 0,
        }
    }
}

impl Extent {
    /// The figures of both.
    pub fn with(self, other: Self) -> Self {
        Self {
            least: self.least.min(other.least),
            greatest: self.greatest.max(other.greatest),
            count: self.count + other.count,
            outside: self.outside + other.outside,
        }
    }
}

impl fmt::Display for Extent {
    fn fmt(&self, f: &mut fmt::Formatter<'_>) -> fmt::Result {
        let (least, greatest) = (Shown(self.least), Shown(self.greatest));
        write!(f, "least {least}, greatest {greatest}")
    }
}

/// A figure as a decimal number, with its bits.
struct Shown(f32);

impl fmt::Display for Shown {
    fn fmt(&self, f: &mut fmt::Formatter<'_>) -> fmt::Result {
        write!(f, "{} ({})", self.0, Hex(self.0))
    }
}

/// What was seen of all figures.
#[derive(Default)]
pub struct Seen {
    /// The calls after which the figures were looked at, or the rows of listings.
    pub looks: usize,
    /// The figures by their names.
    pub extents: BTreeMap<&'static str, Extent>,
    /// The first figure out of its bounds since this was taken.
    pub out: Option<String>,
}

impl Seen {
    /// Looks at the figures of a channel, each in the bounds of its place.
    pub fn see(
        &mut self,
        name: &'static str,
        channel: usize,
        figures: &[f32],
        bounds: impl Fn(usize) -> Bounds,
    ) {
        let extent = self.extents.entry(name).or_default();
        for (place, &figure) in figures.iter().enumerate() {
            let bounds = bounds(place);
            extent.least = extent.least.min(figure);
            extent.greatest = extent.greatest.max(figure);
            extent.count += 1;
            if !bounds.contains(&figure) {
                extent.outside += 1;
                let (figure, least) = (Shown(figure), Shown(*bounds.start()));
                let greatest = Shown(*bounds.end());
                self.out.get_or_insert_with(|| {
                    format!("{name} {channel}, place {place}: {figure}, not {least} to {greatest}")
                });
            }
        }
    }

    /// The figures of a name, of which there may be none.
    pub fn extent(&self, name: &str) -> Extent {
        self.extents.get(name).copied().unwrap_or_default()
    }

    /// How many figures were out of their bounds.
    pub fn outside(&self) -> usize {
        self.extents.values().map(|extent| extent.outside).sum()
    }
}
