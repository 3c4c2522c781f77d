// Stands in one module with the published file of the same name and hands out
// its private fields.

/// What the estimator is made of, and the blocks that it has counted.
pub struct Peeked<'a> {
    pub blocks: usize,
    pub subband: &'a SubbandErleEstimator,
    /// With two or more sections.
    pub signal: Option<&'a SignalDependentErleEstimator>,
    pub fullband: &'a FullBandErleEstimator,
}

pub fn peek(estimator: &ErleEstimator) -> Peeked<'_> {
    Peeked {
        blocks: estimator.blocks_since_reset,
        subband: &estimator.subband_erle_estimator,
        signal: estimator.signal_dependent_erle_estimator.as_ref(),
        fullband: &estimator.fullband_erle_estimator,
    }
}
