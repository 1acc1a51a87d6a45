// For the crate's `decoder/side_info.rs`: the record that the side information is read into.

#[derive(Clone, Copy, Debug, PartialEq)]
pub enum Bandwidth {
    NarrowBand,
    WideBand,
    SemiSuperWideBand,
    SuperWideBand,
    FullBand,
}

#[derive(Debug)]
pub struct SnsVq {
    pub ind_lf: usize,
    pub ind_hf: usize,
    pub ls_inda: usize,
    pub ls_indb: usize,
    pub idx_a: usize,
    pub idx_b: usize,
    pub submode_lsb: u8,
    pub submode_msb: u8,
    pub g_ind: usize,
}

#[derive(Debug)]
pub struct LongTermPostFilterInfo {
    pub pitch_present: bool,
    pub is_active: bool,
    pub pitch_index: usize,
}

#[derive(Debug)]
pub struct SideInfo {
    pub bandwidth: Bandwidth,
    pub lastnz: usize,
    pub lsb_mode: bool,
    pub global_gain_index: usize,
    pub num_tns_filters: usize,
    pub reflect_coef_order_ari_input: [usize; 2],
    pub sns_vq: SnsVq,
    pub long_term_post_filter_info: LongTermPostFilterInfo,
    pub noise_factor: usize,
}
