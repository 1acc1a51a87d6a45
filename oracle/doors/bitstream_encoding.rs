// What the cases call of the bitstream writer; the file and its copy with the standard's mask share it.

use crate::lc3::coder::State;

pub fn start() -> BitstreamEncoding {
    let mut coder = BitstreamEncoding::default();
    coder.ac_enc_init();
    coder
}

pub fn coder(at: State) -> BitstreamEncoding {
    let mut coder = BitstreamEncoding::default();
    coder.st.low = at.low;
    coder.st.range = at.range;
    coder.st.cache = at.cache;
    coder.st.carry = at.carry;
    coder.st.carry_count = at.carry_count;
    coder.writer.bp = at.bp;
    coder
}

pub fn state(coder: &BitstreamEncoding) -> State {
    let st = &coder.st;
    State {
        low: st.low,
        range: st.range,
        cache: st.cache,
        carry: st.carry,
        carry_count: st.carry_count,
        bp: coder.writer.bp,
    }
}

pub fn symbol(coder: &mut BitstreamEncoding, cumulative: i16, frequency: i16, bytes: &mut [u8]) {
    coder.ac_encode(cumulative, frequency, bytes)
}

pub fn forecast(coder: &BitstreamEncoding) -> usize {
    coder.nbits_side_forcast()
}

// What the finish leaves behind a state.
pub fn finished(at: State, bytes: &mut [u8]) -> State {
    let mut coder = coder(at);
    coder.ac_enc_finish(bytes);
    state(&coder)
}

// What `encode` takes for the side information.
pub struct Side {
    pub bandwidth: BandwidthDetectorResult,
    pub sns: SnsResult,
    pub tns: TnsResult,
    pub post_filter: LongTermPostFilterResult,
    pub spec: SpectralQuantizationResult,
    pub noise_factor: usize,
}

// The part of `encode` that writes the side information, at any place; its `init` would clear the frame.
pub fn side(ne: usize, writer: BufferWriter, side: &Side, bytes: &mut [u8]) -> BufferWriter {
    let Side { bandwidth, sns, tns, post_filter, spec, noise_factor } = side;
    let mut coder = BitstreamEncoding { writer, ..BitstreamEncoding::new(ne) };
    coder.bandwidth(bandwidth.bandwidth_ind, bandwidth.nbits_bandwidth, bytes);
    coder.last_non_zero_tuple(spec.lastnz_trunc, bytes);
    coder.lsb_mode_bit(spec.lsb_mode, bytes);
    coder.global_gain(spec.gg_ind as usize, bytes);
    coder.tns_activation_flag(tns.num_tns_filters, &tns.rc_order, bytes);
    coder.pitch_present_flag(post_filter.pitch_present, bytes);
    coder.encode_scf_vq_1st_stage(sns.ind_lf, sns.ind_hf, bytes);
    coder.encode_scf_vq_2nd_stage(sns.shape_j, sns.gind, sns.ls_inda, sns.index_joint_j, bytes);
    if post_filter.pitch_present {
        coder.ltpf_data(post_filter.ltpf_active, post_filter.pitch_index, bytes);
    }
    coder.noise_factor(*noise_factor, bytes);
    coder.writer
}

// All of `encode`.
pub fn encode(ne: usize, side: Side, residual: &[bool], lines: &[i16], bytes: &mut [u8]) {
    let Side { bandwidth, sns, tns, post_filter, spec, noise_factor } = side;
    let bits = ResidualBits(residual.iter());
    BitstreamEncoding::new(ne).encode(bandwidth, sns, tns, post_filter, spec, bits, noise_factor, lines, bytes)
}

// What `encode` does before the residual bits, by its own functions in its order: the tail's bits, and the coder's state.
pub fn before_residual(ne: usize, of: &Side, lines: &[i16], bytes: &mut [u8]) -> (usize, State) {
    let mut coder = BitstreamEncoding::new(ne);
    coder.init(bytes);
    coder.writer = side(ne, coder.writer, of, bytes);
    coder.ac_enc_init();
    let Side { tns, spec, .. } = of;
    coder.tns_data(tns.lpc_weighting, tns.num_tns_filters, &tns.rc_order, &tns.rc_i, bytes);
    coder.spectral_data(spec.lastnz_trunc, spec.rate_flag, spec.lsb_mode, lines, spec.nbits_lsb, bytes);
    (coder.nbits_side_written(), state(&coder))
}
