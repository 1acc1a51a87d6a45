// For the encoder's other stages: of each result the fields that the bitstream writer takes.

pub mod bandwidth_detector {
    pub struct BandwidthDetectorResult {
        pub bandwidth_ind: usize,
        pub nbits_bandwidth: usize,
    }
}

pub mod long_term_post_filter {
    pub struct LongTermPostFilterResult {
        pub pitch_present: bool,
        pub ltpf_active: bool,
        pub pitch_index: usize,
    }
}

pub mod residual_spectrum {
    // A list of bits in place of the bits computed one by one.
    pub struct ResidualBits<'a>(pub std::slice::Iter<'a, bool>);

    impl<'a> Iterator for ResidualBits<'a> {
        type Item = bool;

        fn next(&mut self) -> Option<bool> {
            self.0.next().copied()
        }
    }
}

pub mod spectral_noise_shaping {
    // the standard's: 10 bits of stage 1, 28 of stage 2
    pub const NBITS_SNS: usize = 38;

    pub struct SnsResult {
        pub ind_lf: usize,
        pub ind_hf: usize,
        pub shape_j: usize,
        pub gind: usize,
        pub ls_inda: usize,
        pub index_joint_j: usize,
    }
}

pub mod temporal_noise_shaping {
    pub struct TnsResult {
        pub lpc_weighting: u8,
        pub num_tns_filters: usize,
        pub rc_order: [usize; 2],
        pub rc_i: [usize; 16],
    }
}
