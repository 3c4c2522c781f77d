//! Which channels are converged.

use super::random::Random;

/// How the flags of a stretch of calls are drawn.
#[derive(Clone, Copy)]
pub enum Flags {
    All,
    /// At least one.
    Some,
    Any,
    None,
}

impl Flags {
    pub fn draw(self, random: &mut Random, channels: usize) -> Vec<bool> {
        match self {
            Self::All => vec![true; channels],
            Self::Some => converged(random, channels),
            Self::Any => mask_flags(random.u32(), channels),
            Self::None => vec![false; channels],
        }
    }
}

/// Flags at random, at least one of them set.
pub fn converged(random: &mut Random, channels: usize) -> Vec<bool> {
    let mask = 1 + random.below((1 << channels) - 1);
    mask_flags(mask, channels)
}

/// The flags that are the low bits of a mask.
pub fn mask_flags(mask: u32, channels: usize) -> Vec<bool> {
    (0..channels).map(|at| mask >> at & 1 == 1).collect()
}
