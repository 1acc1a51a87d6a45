// For the crate's `common/`: frame duration, the largest lengths, the float type.

pub mod config {
    #[derive(Clone, Copy, Debug, PartialEq)]
    pub enum FrameDuration {
        SevenPointFiveMs,
        TenMs,
    }
}

pub mod constants {
    // `ArithmeticData` in the source writes the number 480 itself
    pub const MAX_LEN_FREQUENCY: usize = 480;
    // the largest `ne`
    pub const MAX_LEN_SPECTRAL: usize = 400;
}

pub mod complex {
    pub type Scaler = f32;
}
