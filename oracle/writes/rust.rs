// What the Rust makes of a record: `encode` on a frame, and what stands before the residual bits.

use super::content::*;
use crate::lc3::coder::State;
use crate::lc3::encoder::bandwidth_detector::BandwidthDetectorResult;
use crate::lc3::encoder::long_term_post_filter::LongTermPostFilterResult;
use crate::lc3::encoder::spectral_noise_shaping::SnsResult;
use crate::lc3::encoder::spectral_quantization::SpectralQuantizationResult;
use crate::lc3::encoder::temporal_noise_shaping::TnsResult;
use crate::lc3::encoder::{bitstream_encoding, standard_encoding};
use crate::records::caught;

// a frame that holds almost any record, and one that holds any: 200 pairs of 14 symbols each, and their tail bits
const SHORT: usize = 800;
const LONG: usize = 8000;
// the joint index of 25 bits has blocks of this length, that of 24 bits ends shape 2 here
const BLOCK: usize = 2_390_004;
const SHAPE_3: usize = 15_158_272;

// What a record needs before its late bits: the tail's bits and E; and the state that both come of.
#[derive(Clone, Copy, Debug)]
pub struct Need {
    pub tail: usize,
    // S, the coder's byte shifts
    pub shifts: usize,
    pub state: State,
}

impl Need {
    pub fn bits(&self) -> usize {
        self.tail + self.reserved()
    }

    // E
    pub fn reserved(&self) -> usize {
        8 * self.shifts + 25 - self.state.range.ilog2() as usize
    }

    // The cache holds nothing, and the Rust's forecast is E + 8.
    pub fn is_empty(&self) -> bool {
        self.state.cache < 0
    }

    // How many late bits an accepted record sends, by the Rust's forecast and by E.
    pub fn sent(&self, case: &Case) -> [usize; 2] {
        let room = case.bits() - self.bits();
        let by_forecast = if self.is_empty() { room.saturating_sub(8) } else { room };
        [by_forecast, room].map(|room| room.min(case.content.late_count()))
    }
}

// The joint index, from document 01's formulas inverted: the crate's own code for it is not among the six files.
fn joint(c: &Content) -> usize {
    let [part, a, lsb, b] = [SNS_GAIN, IDX_A, LS_INDB, IDX_B].map(|field| c.side[field] as usize);
    match c.shape() {
        0 => (2 + 2 * b + lsb) * BLOCK + a,
        1 => part % 2 * BLOCK + a,
        2 => a,
        _ => SHAPE_3 + 2 * a + part % 2,
    }
}

// The file and its copy with the standard's mask have a type each for the same arguments.
macro_rules! side {
    ($door:path, $case:expr) => {{
        use $door as door;
        let (case, c) = ($case, &$case.content);
        let [bandwidth, gain, pitch, active, index, lf, hf, part, ls_inda, noise] =
            [BANDWIDTH, GAIN, PITCH, ACTIVE, INDEX, LF, HF, SNS_GAIN, LS_INDA, NOISE].map(|k| c.side[k] as usize);
        door::Side {
            bandwidth: BandwidthDetectorResult {
                bandwidth_ind: bandwidth,
                nbits_bandwidth: [0, 1, 2, 2, 3][case.fs_ind],
            },
            sns: SnsResult { ind_lf: lf, ind_hf: hf, shape_j: c.shape(), gind: part, ls_inda, index_joint_j: joint(c) },
            tns: TnsResult {
                lpc_weighting: (case.bits() < [480, 360][case.duration]) as u8,
                num_tns_filters: 1 + (bandwidth >= 3) as usize,
                rc_order: c.orders,
                rc_i: c.indices,
            },
            post_filter: LongTermPostFilterResult {
                pitch_present: pitch == 1,
                ltpf_active: active == 1,
                pitch_index: index,
            },
            spec: SpectralQuantizationResult {
                gg_ind: gain as i16,
                nbits_spec: 0,
                // two late bits to a line at most
                nbits_lsb: if c.least_bits() { 2 * c.lastnz() } else { 0 },
                nbits_trunc: 0,
                lsb_mode: c.least_bits(),
                rate_flag: if case.bits() > 160 + 160 * case.fs_ind { 512 } else { 0 },
                lastnz_trunc: c.lastnz(),
                gg: 0.0,
            },
            noise_factor: noise,
        }
    }};
}

fn bits(c: &Content) -> Vec<bool> {
    c.residual.iter().map(|bit| bit % 2 == 1).collect()
}

// The whole frame, in the place of bytes that the Rust clears; None where it panics.
pub fn encode(case: &Case) -> Option<Vec<u8>> {
    let mut frame = vec![0xa5; case.len];
    let (side, residual) = (side!(bitstream_encoding::door, case), bits(&case.content));
    caught(|| bitstream_encoding::door::encode(case.ne(), side, &residual, &case.content.lines, &mut frame))?;
    Some(frame)
}

// The same by the copy with the standard's mask.
pub fn encode_standard(case: &Case) -> Option<Vec<u8>> {
    let mut frame = vec![0xa5; case.len];
    let (side, residual) = (side!(standard_encoding::door, case), bits(&case.content));
    caught(|| standard_encoding::door::encode(case.ne(), side, &residual, &case.content.lines, &mut frame))?;
    Some(frame)
}

// On a frame that is longer than the record, with what the record's own length decides; the Rust panics at a frame's end.
pub fn need(case: &Case) -> Option<Need> {
    need_in(case, &mut [0; SHORT]).or_else(|| need_in(case, &mut [0; LONG]))
}

fn need_in(case: &Case, frame: &mut [u8]) -> Option<Need> {
    let side = side!(bitstream_encoding::door, case);
    let call = || bitstream_encoding::door::before_residual(case.ne(), &side, &case.content.lines, frame);
    let (tail, state) = caught(call)?;
    let shifts = state.bp + (state.cache >= 0) as usize + state.carry_count as usize;
    Some(Need { tail, shifts, state })
}
