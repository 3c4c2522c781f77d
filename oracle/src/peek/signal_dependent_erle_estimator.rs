// Stands in one module with the published file of the same name and hands out
// its private functions and fields.

/// The boundaries of the filter sections, in blocks.
pub fn peek_section_boundaries(
    headroom_blocks: usize,
    length_blocks: usize,
    sections: usize,
) -> Vec<usize> {
    set_sections_boundaries(headroom_blocks, length_blocks, sections)
}

/// The sizes of the filter sections, in blocks.
pub fn peek_section_sizes(
    headroom_blocks: usize,
    length_blocks: usize,
    sections: usize,
) -> Vec<usize> {
    define_filter_section_sizes(headroom_blocks, length_blocks, sections)
}

/// The subband of each band.
pub fn peek_subband_map() -> [usize; FFT_LENGTH_BY_2_PLUS_1] {
    form_subband_map()
}

/// The maximum of each subband, as an estimator's start sets it.
pub fn peek_subband_maxima(max_l: f32, max_h: f32) -> [f32; SUBBANDS] {
    set_max_erle_subbands(max_l, max_h, form_subband_map()[FFT_LENGTH_BY_2 / 2])
}

/// What a channel holds beside the figures that the estimator answers.
pub struct PeekedChannel<'a> {
    /// The running sums of the section echoes, section by section.
    pub echo_sums: &'a [[f32; FFT_LENGTH_BY_2_PLUS_1]],
    /// The estimates and the factors, section by section.
    pub estimates: &'a [[f32; SUBBANDS]],
    pub factors: &'a [[f32; SUBBANDS]],
    pub reference: &'a [f32; SUBBANDS],
    pub updates: &'a [usize; SUBBANDS],
    /// The active section of each band.
    pub active: &'a [usize; FFT_LENGTH_BY_2_PLUS_1],
}

pub fn peek_channel(
    estimator: &SignalDependentErleEstimator,
    channel: usize,
) -> PeekedChannel<'_> {
    PeekedChannel {
        echo_sums: &estimator.s2_section_accum[channel],
        estimates: &estimator.erle_estimators[channel],
        factors: &estimator.correction_factors[channel],
        reference: &estimator.erle_ref[channel],
        updates: &estimator.num_updates[channel],
        active: &estimator.n_active_sections[channel],
    }
}
