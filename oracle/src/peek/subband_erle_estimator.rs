// Stands in one module with the published file of the same name and hands out
// its private fields.

/// What a channel holds beside the figures that the estimator answers.
pub struct PeekedChannel<'a> {
    pub compensated: &'a [f32; FFT_LENGTH_BY_2_PLUS_1],
    pub points: usize,
    pub capture_sums: &'a [f32; FFT_LENGTH_BY_2_PLUS_1],
    pub residual_sums: &'a [f32; FFT_LENGTH_BY_2_PLUS_1],
    pub low_energy: &'a [bool; FFT_LENGTH_BY_2_PLUS_1],
    pub waiting: &'a [bool; FFT_LENGTH_BY_2_PLUS_1],
    pub holds: &'a [i32; FFT_LENGTH_BY_2_PLUS_1],
}

pub fn peek_channel(estimator: &SubbandErleEstimator, channel: usize) -> PeekedChannel<'_> {
    let held = &estimator.accum_spectra;
    PeekedChannel {
        compensated: &estimator.erle_onset_compensated[channel],
        points: held.num_points[channel],
        capture_sums: &held.y2[channel],
        residual_sums: &held.e2[channel],
        low_energy: &held.low_render_energy[channel],
        waiting: &estimator.coming_onset[channel],
        holds: &estimator.hold_counters[channel],
    }
}
