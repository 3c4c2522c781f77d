// Stands in one module with the published file of the same name and hands out
// its private fields.

/// What a channel holds.
pub struct PeekedChannel {
    pub hold: i32,
    pub points: i32,
    pub figure: f32,
    pub capture_sum: f32,
    pub residual_sum: f32,
    pub greatest: f32,
    pub least: f32,
    pub log2: Option<f32>,
    /// Before clamping.
    pub quality: f32,
}

pub fn peek_channel(estimator: &FullBandErleEstimator, channel: usize) -> PeekedChannel {
    let held = &estimator.instantaneous_erle[channel];
    PeekedChannel {
        hold: estimator.hold_counters_time_domain[channel],
        points: held.num_points,
        figure: estimator.erle_time_domain_log2[channel],
        capture_sum: held.y2_accum,
        residual_sum: held.e2_accum,
        greatest: held.max_erle_log2,
        least: held.min_erle_log2,
        log2: held.erle_log2,
        quality: held.inst_quality_estimate,
    }
}
