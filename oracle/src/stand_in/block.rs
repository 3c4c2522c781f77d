//! Stands in for the block of samples, which is not among the published files
//! we hold. It holds no samples; no estimator reads any.

pub struct Block;

impl Block {
    pub fn new(_num_bands: usize, _num_channels: usize) -> Self {
        Self
    }
}
