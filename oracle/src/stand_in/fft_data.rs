//! Stands in for the transform of a block, which is not among the published
//! files we hold. It holds no values; no estimator reads any.

#[derive(Default)]
pub struct FftData;
