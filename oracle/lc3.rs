// The six files of lc3-codec, unchanged, in the module tree that they expect; what is absent comes from shims/.
// A `door` is a child module, so it may name what its file keeps private; the cases call through it.
#![allow(dead_code)]

macro_rules! source {
    ($file:literal) => {
        include!(concat!(env!("ORACLE_SOURCE"), "/", $file));
    };
}

#[path = "shims/byteorder.rs"]
mod byteorder;
#[path = "shims/common.rs"]
pub mod common;
#[path = "shims/encoder_results.rs"]
mod encoder_results;
#[path = "shims/heapless.rs"]
pub mod heapless;
#[path = "shims/itertools.rs"]
mod itertools;
#[path = "shims/num_traits.rs"]
pub mod num_traits;
#[path = "shims/side_info.rs"]
pub mod side_info;
#[path = "shims/tables.rs"]
pub mod tables;

pub mod coder {
    // The encoder's state, and the bytes that are out.
    #[derive(Clone, Copy, Debug, PartialEq)]
    pub struct State {
        pub low: u32,
        pub range: u32,
        pub cache: i32,
        pub carry: i32,
        pub carry_count: i32,
        pub bp: usize,
    }
}

pub mod decoder {
    pub use super::side_info;

    pub mod buffer_reader {
        use crate::lc3::byteorder;
        source!("src/decoder/buffer_reader.rs");
    }

    pub mod side_info_reader {
        use crate::lc3::num_traits;
        source!("src/decoder/side_info_reader.rs");
    }

    pub mod arithmetic_codec {
        use crate::lc3::{heapless, num_traits};
        source!("src/decoder/arithmetic_codec.rs");

        pub mod door {
            use super::*;

            // Low and range.
            pub type State = (u32, u32);

            pub fn start(buf: &[u8], reader: &mut BufferReader) -> Result<State, ArithmeticCodecError> {
                ac_dec_init(buf, reader).map(|st| (st.ac_low, st.ac_range))
            }

            pub fn symbol(
                buf: &[u8],
                reader: &mut BufferReader,
                state: &mut State,
                cumulative: &[i16],
                frequency: &[i16],
            ) -> Result<usize, ArithmeticCodecError> {
                let mut st = ArithmeticDecoderState { ac_low: state.0, ac_range: state.1 };
                let answer = ac_decode(buf, reader, &mut st, cumulative, frequency);
                *state = (st.ac_low, st.ac_range);
                answer
            }

            // The state behind a frame's lines: what `decode` does up to there, since it hands no state out.
            pub fn behind_lines(
                buf: &[u8],
                reader: &mut BufferReader,
                fs_ind: usize,
                ne: usize,
                side: &SideInfo,
                duration: &FrameDuration,
                lines: &mut [i32],
            ) -> Result<State, ArithmeticDecodeError> {
                let nbits = 8 * buf.len();
                let mut levels = [0; MAX_LEN_SPECTRAL];
                let mut st = ac_dec_init(buf, reader)?;
                decode_tns_data(buf, reader, side, &mut st, nbits, duration)?;
                decode_spectral_data(buf, reader, side, nbits, fs_ind, ne, &mut st, lines, &mut levels)?;
                Ok((st.ac_low, st.ac_range))
            }
        }
    }

    // The same file with the stop at fourteen escapes that request P4 gives the standard reading.
    pub mod standard_codec {
        use crate::lc3::{heapless, num_traits};
        source!("standard/arithmetic_codec.rs");
    }
}

pub mod encoder {
    pub use super::encoder_results::{
        bandwidth_detector, long_term_post_filter, residual_spectrum, spectral_noise_shaping, temporal_noise_shaping,
    };

    pub mod buffer_writer {
        use crate::lc3::num_traits;
        source!("src/encoder/buffer_writer.rs");

        pub mod door {
            use super::*;

            pub fn at(bp: usize, bp_side: u16, mask_side: u8) -> BufferWriter {
                BufferWriter { bp, bp_side, mask_side }
            }

            // The tail place: byte and mask.
            pub fn tail(writer: &BufferWriter) -> (u16, u8) {
                (writer.bp_side, writer.mask_side)
            }
        }
    }

    pub mod bitstream_encoding {
        use crate::lc3::{heapless, num_traits};
        source!("src/encoder/bitstream_encoding.rs");

        pub mod door {
            use super::*;
            include!("doors/bitstream_encoding.rs");
        }
    }

    // The same file with the one mask that the standard has and the crate has not.
    pub mod standard_encoding {
        use crate::lc3::{heapless, num_traits};
        source!("standard/bitstream_encoding.rs");

        pub mod door {
            use super::*;
            include!("doors/bitstream_encoding.rs");
        }
    }

    pub mod spectral_quantization {
        use crate::lc3::{itertools, num_traits};
        source!("src/encoder/spectral_quantization.rs");

        pub mod door {
            use super::*;

            pub struct Estimate {
                pub rate_flag: usize,
                pub mode_flag: bool,
                pub lastnz: usize,
                pub lastnz_trunc: usize,
                pub nbits_est: usize,
                pub nbits_trunc: usize,
                pub nbits_lsb: usize,
            }

            pub fn estimate(ne: usize, fs_ind: usize, x_q: &mut [i16], nbits: usize, target: usize) -> Estimate {
                let b = SpectralQuantization::new(ne, fs_ind).compute_bit_consumption(x_q, nbits, target);
                Estimate {
                    rate_flag: b.rate_flag,
                    mode_flag: b.mode_flag,
                    lastnz: b.lastnz,
                    lastnz_trunc: b.lastnz_trunc,
                    nbits_est: b.nbits_est,
                    nbits_trunc: b.nbits_trunc,
                    nbits_lsb: b.nbits_lsb,
                }
            }

            pub fn gain(energies: &[Scaler], gg_off: i16, target: usize) -> i16 {
                let params = GlobalGainEstimationParams { nbits_offset: 0.0, nbits_spec_adj: target, gg_off };
                SpectralQuantization::new(0, 0).global_gain_estimation(energies, &params)
            }

            // Quantises x_f into x_q and returns the gain that was used; lines past the target are set to 0.
            pub fn quantise(
                fs_ind: usize,
                x_f: &[Scaler],
                x_q: &mut [i16],
                nbits: usize,
                gg: [i16; 2],
                target: usize,
            ) -> f32 {
                SpectralQuantization::new(x_f.len(), fs_ind).quantize_spectrum(x_f, x_q, nbits, gg[0], gg[1], target).gg
            }
        }
    }
}
