// Cases of the side information, read and written: every configuration, shape and limit, and room ending at each field.
// Frames are laid out here by document 01, which only aims the cases, and read by its order of fields, which tells where
// the Rust panics and where its reader ends; every answer is the Rust's, but where it panics.

use super::buffer_reader::{bytes_of, cursors, reader_at};
use super::buffer_writer::{writer_at, written};
use crate::lc3::decoder::buffer_reader::BufferReaderError::*;
use crate::lc3::decoder::side_info_reader::{read, SideInfoError::*};
use crate::lc3::encoder::bandwidth_detector::BandwidthDetectorResult;
use crate::lc3::encoder::bitstream_encoding::door;
use crate::lc3::encoder::long_term_post_filter::LongTermPostFilterResult;
use crate::lc3::encoder::spectral_noise_shaping::SnsResult;
use crate::lc3::encoder::spectral_quantization::SpectralQuantizationResult;
use crate::lc3::encoder::temporal_noise_shaping::TnsResult;
use crate::records::{accepted, beyond, hold, no_tail_room, refused, Answer, OneOfEach, Records, Rng};

// the shortest frame
const SHORT: usize = 20;
// the largest cursor that is compared
const FAR: usize = 65_535;
// the most bits that the side information takes
const MOST: usize = 74;
// a frame that also has room for what `encode` writes behind it, all lines 0
const LONG: usize = 160;
// the joint index of 25 bits has 14 blocks of this length: 2 of shape 1, then 12 of shape 0
const BLOCK: usize = 2_390_004;
const BLOCKS: usize = 14;
// the joint index of 24 bits: where shape 2 ends and shape 3 begins, and where that ends
const SHAPE_3: usize = 15_158_272;
const END_24: usize = 16_708_096;

#[derive(Clone, Copy, PartialEq, Eq, PartialOrd, Ord)]
pub struct Config {
    pub fs_ind: usize,
    pub duration: usize,
}

impl Config {
    pub fn all() -> impl Iterator<Item = Config> {
        (0..10).map(|i| Config { fs_ind: i % 5, duration: i / 5 })
    }

    pub fn ne(self) -> usize {
        [80, 60][self.duration] * (self.fs_ind + 1)
    }

    fn bandwidth_bits(self) -> usize {
        [0, 1, 2, 2, 3][self.fs_ind]
    }

    fn lastnz_bits(self) -> usize {
        (self.ne() / 2).next_power_of_two().trailing_zeros() as usize
    }
}

// A number of 0..n, one time in four the first or the last.
fn number(rng: &mut Rng, n: usize) -> usize {
    match rng.below(8) {
        0 => 0,
        1 => n - 1,
        _ => rng.below(n),
    }
}

// What the reader returns and the writer takes.
struct Record {
    bandwidth: usize,
    lastnz: usize,
    lsb: usize,
    gain: usize,
    tns: [usize; 2],
    pitch: usize,
    lf: usize,
    hf: usize,
    msb: usize,
    submode_lsb: usize,
    sns_gain: usize,
    ls_inda: usize,
    idx_a: usize,
    ls_indb: usize,
    idx_b: usize,
    active: usize,
    index: usize,
    noise: usize,
}

impl Record {
    // A record that the reader can return, if the bandwidth is one.
    fn new(rng: &mut Rng, of: Config, bandwidth: usize, (shape, pitch): (usize, usize)) -> Self {
        Record {
            bandwidth,
            lastnz: 2 * (number(rng, of.ne() / 2) + 1),
            lsb: rng.below(2),
            gain: number(rng, 256),
            tns: [rng.below(2), if bandwidth >= 3 { rng.below(2) } else { 0 }],
            pitch,
            lf: number(rng, 32),
            hf: number(rng, 32),
            msb: shape / 2,
            submode_lsb: shape % 2,
            sns_gain: rng.below([2, 4, 4, 8][shape]),
            ls_inda: rng.below(2),
            idx_a: number(rng, [BLOCK, BLOCK, SHAPE_3, (END_24 - SHAPE_3) / 2][shape]),
            ls_indb: if shape == 0 { rng.below(2) } else { 0 },
            idx_b: if shape == 0 { rng.below(6) } else { 0 },
            active: if pitch == 1 { rng.below(2) } else { 0 },
            index: if pitch == 1 { number(rng, 512) } else { 0 },
            noise: number(rng, 8),
        }
    }

    fn any(rng: &mut Rng, of: Config) -> Self {
        let (bandwidth, kind) = (rng.below(of.fs_ind + 1), (rng.below(4), rng.below(2)));
        Record::new(rng, of, bandwidth, kind)
    }

    fn shape(&self) -> usize {
        2 * self.msb + self.submode_lsb
    }

    // The joint index, from document 01's formulas inverted: the crate's own code for it is not among the six files.
    fn joint(&self) -> usize {
        match self.shape() {
            0 => (2 + 2 * self.idx_b + self.ls_indb) * BLOCK + self.idx_a,
            1 => self.sns_gain % 2 * BLOCK + self.idx_a,
            2 => self.idx_a,
            _ => SHAPE_3 + 2 * self.idx_a + self.sns_gain % 2,
        }
    }

    // The widths and values that a frame holds, in order from the tail.
    fn fields(&self, of: Config) -> Vec<(usize, usize)> {
        let pairs = self.lastnz / 2 - 1;
        let part = self.sns_gain >> self.submode_lsb;
        let mut fields = vec![(of.bandwidth_bits(), self.bandwidth), (of.lastnz_bits(), pairs)];
        fields.extend([(1, self.lsb), (8, self.gain), (1, self.tns[0])]);
        if self.bandwidth >= 3 {
            fields.push((1, self.tns[1]));
        }
        fields.extend([(1, self.pitch), (5, self.lf), (5, self.hf), (1, self.msb), (1 + self.msb, part)]);
        fields.extend([(1, self.ls_inda), (25 - self.msb, self.joint())]);
        if self.pitch == 1 {
            fields.extend([(1, self.active), (9, self.index)]);
        }
        fields.push((3, self.noise));
        fields
    }

    // As a call and an answer have it.
    fn numbers(&self) -> [usize; 19] {
        [
            self.bandwidth,
            self.lastnz,
            self.lsb,
            self.gain,
            self.tns[0],
            self.tns[1],
            self.pitch,
            self.lf,
            self.hf,
            self.msb,
            self.submode_lsb,
            self.sns_gain,
            self.ls_inda,
            self.idx_a,
            self.ls_indb,
            self.idx_b,
            self.active,
            self.index,
            self.noise,
        ]
    }

    // What the Rust's writer takes.
    fn side(&self, of: Config) -> door::Side {
        door::Side {
            bandwidth: BandwidthDetectorResult { bandwidth_ind: self.bandwidth, nbits_bandwidth: of.bandwidth_bits() },
            sns: SnsResult {
                ind_lf: self.lf,
                ind_hf: self.hf,
                shape_j: self.shape(),
                gind: self.sns_gain,
                ls_inda: self.ls_inda,
                index_joint_j: self.joint(),
            },
            tns: TnsResult {
                lpc_weighting: 0,
                num_tns_filters: 1 + (self.bandwidth >= 3) as usize,
                // a flag stands for any order but 0
                rc_order: [0, 1].map(|f| self.tns[f] * (1 + (self.gain + 3 * f) % 8)),
                rc_i: std::array::from_fn(|k| (self.lf + k) % 17),
            },
            post_filter: LongTermPostFilterResult {
                pitch_present: self.pitch == 1,
                ltpf_active: self.active == 1,
                pitch_index: self.index,
            },
            spec: SpectralQuantizationResult {
                gg_ind: self.gain as i16,
                nbits_spec: 0,
                nbits_lsb: 0,
                nbits_trunc: 0,
                lsb_mode: self.lsb == 1,
                rate_flag: 0,
                lastnz_trunc: self.lastnz,
                gg: 0.0,
            },
            noise_factor: self.noise,
        }
    }
}

// Lays fields from a tail place on, the lowest bit of each first; bits past the frame's start are dropped.
fn lay(frame: &mut [u8], tail: usize, fields: &[(usize, usize)]) {
    let mut at = tail;
    for (width, value) in fields {
        for k in 0..*width {
            if let Some(byte) = frame.iter_mut().rev().nth(at / 8) {
                *byte = *byte & !(1 << (at % 8)) | ((value >> k & 1) as u8) << (at % 8);
            }
            at += 1;
        }
    }
}

// The bit at a tail place.
fn bit_at(frame: &[u8], tail: usize) -> usize {
    (frame[frame.len() - 1 - tail / 8] >> (tail % 8)) as usize & 1
}

// The fields of a frame in document 01's order, up to the first refusal.
pub struct Walk<'a> {
    frame: &'a [u8],
    head: usize,
    pub tail: usize,
    refusal: Option<Answer>,
    // the refusal is one that the Rust does not have
    panics: bool,
}

impl Walk<'_> {
    fn refuse(&mut self, is_so: bool, number: usize, values: &[usize]) -> bool {
        if is_so && self.refusal.is_none() {
            self.refusal = Some(refused(number, values));
        }
        self.refusal.is_some()
    }

    fn value(&mut self, width: usize) -> usize {
        let value = (0..width).map(|k| bit_at(self.frame, self.tail + k) << k).sum();
        self.tail += width;
        value
    }

    fn field(&mut self, width: usize) -> usize {
        let (byte, b) = (self.tail / 8, self.tail % 8);
        let is_past = width > 0 && bytes_of(width, b) + self.head + byte > self.frame.len();
        if self.refuse(is_past, 9, &[width, self.tail]) {
            return 0;
        }
        self.value(width)
    }

    fn bit(&mut self) -> usize {
        let (byte, len) = (self.tail / 8, self.frame.len());
        let (is_past, is_outside, goes_on) = (self.head + byte > len + 2, byte >= len, self.refusal.is_none());
        if self.refuse(is_past || is_outside, 9, &[1, self.tail]) {
            self.panics |= goes_on && !is_past;
            return 0;
        }
        self.value(1)
    }

    fn all(&mut self, of: Config) {
        let bandwidth = self.field(of.bandwidth_bits());
        self.refuse(bandwidth > of.fs_ind, 5, &[bandwidth]);
        let lastnz = 2 * (self.field(of.lastnz_bits()) + 1);
        self.refuse(lastnz > of.ne(), 6, &[lastnz, of.ne()]);
        self.bit();
        self.field(8);
        self.bit();
        if bandwidth >= 3 {
            self.bit();
        }
        let pitch = self.bit();
        self.field(5);
        self.field(5);
        let msb = self.bit();
        self.field(1 + msb);
        self.bit();
        let joint = self.field(25 - msb);
        self.refuse(joint >= [BLOCKS * BLOCK, END_24][msb], 7 + msb, &[joint]);
        if pitch == 1 {
            self.bit();
            self.field(9);
        }
        self.field(3);
    }
}

// The numbers of a call, with those of the record where it is written.
pub fn in_call(of: Config, (head, tail): (usize, usize), record: &[usize]) -> Vec<usize> {
    [&[head, tail, of.fs_ind, of.duration], record].concat()
}

pub struct Read {
    pub of: Config,
    pub at: (usize, usize),
    pub frame: Vec<u8>,
}

impl Read {
    fn new(rng: &mut Rng, of: Config, at: (usize, usize), len: usize, fields: &[(usize, usize)]) -> Self {
        let mut frame = rng.bytes(len);
        lay(&mut frame, at.1, fields);
        Read { of, at, frame }
    }

    pub fn put(&self, out: &mut Records) {
        let walk = self.walk();
        let panics = walk.refusal.filter(|_| walk.panics);
        out.put_said(33, (&in_call(self.of, self.at, &[]), &self.frame), panics, || self.answer());
    }

    pub fn walk(&self) -> Walk<'_> {
        let (head, tail) = self.at;
        let mut walk = Walk { frame: &self.frame, head, tail, refusal: None, panics: false };
        walk.all(self.of);
        walk
    }

    pub fn answer(&self) -> Answer {
        let mut reader = reader_at(self.at);
        let result = read(&self.frame, &mut reader, self.of.fs_ind, self.of.ne());
        let ((head, tail), walk) = (cursors(&reader), self.walk());
        hold((head, tail) == (walk.head, walk.tail), "the reader ends elsewhere");
        match result {
            Ok(side) => {
                let (sns, filter) = (&side.sns_vq, &side.long_term_post_filter_info);
                let filters = 1 + (side.bandwidth as usize >= 3) as usize;
                hold(side.num_tns_filters == filters, "another number of TNS filters");
                let record = Record {
                    bandwidth: side.bandwidth as usize,
                    lastnz: side.lastnz,
                    lsb: side.lsb_mode as usize,
                    gain: side.global_gain_index,
                    tns: side.reflect_coef_order_ari_input,
                    pitch: filter.pitch_present as usize,
                    lf: sns.ind_lf,
                    hf: sns.ind_hf,
                    msb: sns.submode_msb as usize,
                    submode_lsb: sns.submode_lsb as usize,
                    sns_gain: sns.g_ind,
                    ls_inda: sns.ls_inda,
                    idx_a: sns.idx_a,
                    ls_indb: sns.ls_indb,
                    idx_b: sns.idx_b,
                    active: filter.is_active as usize,
                    index: filter.pitch_index,
                    noise: side.noise_factor,
                };
                accepted(&[&[head, tail], &record.numbers()[..]].concat())
            }
            Err(BandwidthIdxOutOfRange(bandwidth)) => refused(5, &[bandwidth]),
            Err(LastNonZeroTupleGreaterThanYLen(lastnz, ne)) => refused(6, &[lastnz, ne]),
            Err(PlcTriggerSns1OutOfRange(joint)) => refused(7, &[joint]),
            Err(PlcTriggerSns2OutOfRange(joint)) => refused(8, &[joint]),
            Err(BufferReaderError(BigEndianBitReaderReadUsizeNumBitsOutOfRange(n, b))) => no_tail_room(n, b, tail),
            Err(BufferReaderError(BigEndianBitReaderReadBoolOutOfRange(b))) => no_tail_room(1, b, tail),
            Err(other) => panic!("the side information has no such refusal: {:?}", other),
        }
    }
}

struct Write {
    of: Config,
    at: (usize, usize),
    record: Record,
    frame: Vec<u8>,
}

impl Write {
    fn new(rng: &mut Rng, of: Config, at: (usize, usize), len: usize, record: Record) -> Self {
        Write { of, at, record, frame: rng.bytes(len) }
    }

    fn put(&self, out: &mut Records) {
        let numbers = in_call(self.of, self.at, &self.record.numbers());
        out.put_said(34, (&numbers, &self.frame), self.panics(), || self.answer());
    }

    // The Rust panics where a field passes the frame's first byte; document 01 refuses the first that does.
    fn panics(&self) -> Option<Answer> {
        let mut tail = self.at.1;
        for (width, _) in self.record.fields(self.of).into_iter().filter(|(width, _)| *width > 0) {
            if tail + width > 8 * self.frame.len() {
                return Some(refused(9, &[width, tail]));
            }
            tail += width;
        }
        None
    }

    fn answer(&self) -> Answer {
        let (side, mut frame) = (self.record.side(self.of), self.frame.clone());
        let writer = writer_at(frame.len(), self.at);
        let writer = door::side(self.of.ne(), writer, &side, &mut frame);
        if self.at.1 == 0 {
            let bits = self.record.fields(self.of).iter().map(|(width, _)| width).sum();
            let whole = self.encoded();
            let is_same = (0..bits).all(|bit| bit_at(&whole, bit) == bit_at(&frame, bit));
            hold(is_same, "`encode` writes other side information than its parts do");
        }
        written(&writer, &frame)
    }

    // What `encode` itself makes of the record, with all lines 0, in a frame that has room for all of it.
    fn encoded(&self) -> Vec<u8> {
        let mut whole = vec![0xff; self.frame.len().max(LONG)];
        door::encode(self.of.ne(), self.record.side(self.of), &[], &vec![0; self.of.ne()], &mut whole);
        whole
    }
}

// The shapes, without pitch and with it.
fn kinds() -> impl Iterator<Item = (usize, usize)> {
    (0..8).map(|i| (i / 2, i % 2))
}

// Joint indices around every limit, with the bit that says their width.
fn joints() -> Vec<(usize, usize)> {
    let around = |at: usize| [at.saturating_sub(2), at.saturating_sub(1), at, at + 1];
    let mut joints: Vec<_> = (0..=BLOCKS).flat_map(|k| around(k * BLOCK)).map(|joint| (0, joint)).collect();
    joints.extend([0, SHAPE_3, END_24].iter().flat_map(|at| around(*at)).map(|joint| (1, joint)));
    joints.extend([(0, (1 << 25) - 1), (1, (1 << 24) - 1)]);
    joints.sort();
    joints.dedup();
    joints
}

fn set_joint(fields: &mut [(usize, usize)], joint: usize) {
    fields.iter_mut().filter(|(width, _)| *width >= 24).for_each(|(_, value)| *value = joint);
}

fn bandwidth_read(rng: &mut Rng, of: Config, bandwidth: usize, kind: (usize, usize)) -> Read {
    let record = Record::new(rng, of, bandwidth, kind);
    Read::new(rng, of, (0, 0), SHORT, &record.fields(of))
}

fn pairs_read(rng: &mut Rng, of: Config, pairs: usize) -> Read {
    let record = Record { lastnz: 2 * (pairs + 1), ..Record::any(rng, of) };
    Read::new(rng, of, (0, 0), SHORT, &record.fields(of))
}

fn joint_read(rng: &mut Rng, of: Config, (msb, joint): (usize, usize), part: usize) -> Read {
    let record = Record { msb, submode_lsb: 0, sns_gain: part, ..Record::any(rng, of) };
    let mut fields = record.fields(of);
    set_joint(&mut fields, joint);
    Read::new(rng, of, (0, 0), SHORT, &fields)
}

// Every bandwidth and number of pairs that their bits can hold, and the joint indices around every limit.
fn read_limits(rng: &mut Rng, mut take: impl FnMut(Read)) {
    for of in Config::all() {
        for bandwidth in 0..1 << of.bandwidth_bits() {
            kinds().for_each(|kind| take(bandwidth_read(rng, of, bandwidth, kind)));
        }
        for pairs in 0..1 << of.lastnz_bits() {
            take(pairs_read(rng, of, pairs));
        }
        for joint in joints() {
            (0..2 << joint.0).for_each(|part| take(joint_read(rng, of, joint, part)));
        }
    }
}

// Room that ends at each field, by the head from every bit index and by the frame's start; with the record laid there.
fn read_rooms(rng: &mut Rng, len: usize, mut take: impl FnMut(&Record, Read)) {
    let mut case = |of: Config, at: (usize, usize), kind: (usize, usize)| {
        let bandwidth = rng.below(of.fs_ind + 1);
        let record = Record::new(rng, of, bandwidth, kind);
        let read = Read::new(rng, of, at, len, &record.fields(of));
        take(&record, read)
    };
    for of in Config::all() {
        for kind in kinds() {
            for tail in 0..8 {
                (len - 14..=len + 4).for_each(|head| case(of, (head, tail), kind));
            }
            for tail in 8 * len - MOST - 8..=8 * len + 32 {
                case(of, (0, tail), kind);
            }
        }
        // only at head 0 can a single bit panic: with another a field before it is refused
        for tail in 8 * len - MOST - 8..=8 * len + 32 {
            (1..=3).for_each(|head| case(of, (head, tail), (tail % 4, head % 2)));
        }
    }
}

// One or both cursors at the end of the domain.
fn far() -> impl Iterator<Item = (usize, usize)> {
    (0..8).flat_map(|back| [(FAR - back, back), (back, FAR - back), (FAR - back, FAR - back)])
}

fn read_far(rng: &mut Rng, len: usize, mut take: impl FnMut(Read)) {
    for of in Config::all() {
        far().for_each(|at| take(Read::new(rng, of, at, len, &[])));
    }
}

fn random_config_and_len(rng: &mut Rng) -> (Config, usize) {
    let of = Config { fs_ind: rng.below(5), duration: rng.below(2) };
    let lens = if rng.below(10) == 0 { 381 } else { 41 };
    (of, SHORT + rng.below(lens))
}

fn random_read(rng: &mut Rng) -> Read {
    let (of, len) = random_config_and_len(rng);
    let at = match rng.below(8) {
        0..=2 => (0, 0),
        3 => (rng.below(len / 2), rng.below(4 * len)),
        4 => (rng.below(len + 5), rng.below(8 * (len + 4))),
        // the room ends inside the side information: at the frame's start, or at a head somewhere
        5 => (0, 8 * len + 8 - rng.below(MOST + 16)),
        _ => {
            let sum = len + 4 - rng.below(16);
            let head = rng.below(sum + 1);
            (head, 8 * (sum - head) + rng.below(8))
        }
    };
    let mut record = Record::any(rng, of);
    let mut joint = record.joint();
    let (all, end) = [(1 << 25, BLOCKS * BLOCK), (1 << 24, END_24)][record.msb];
    match rng.below(12) {
        0..=2 => return Read::new(rng, of, at, len, &[]),
        3 => record.bandwidth = number(rng, 1 << of.bandwidth_bits()),
        4 => record.lastnz = of.ne() + 2 + 2 * number(rng, (1 << of.lastnz_bits()) - of.ne() / 2),
        5 => joint = rng.below(all),
        6 => joint = end + number(rng, all - end),
        _ => {}
    }
    let mut fields = record.fields(of);
    set_joint(&mut fields, joint);
    Read::new(rng, of, at, len, &fields)
}

// Every bandwidth, shape and pitch, and every number of pairs.
fn write_limits(rng: &mut Rng, mut take: impl FnMut(Write)) {
    for of in Config::all() {
        for bandwidth in 0..=of.fs_ind {
            for kind in kinds() {
                let record = Record::new(rng, of, bandwidth, kind);
                take(Write::new(rng, of, (0, 0), SHORT, record));
            }
        }
        for lastnz in (2..=of.ne()).step_by(2) {
            let record = Record { lastnz, ..Record::any(rng, of) };
            take(Write::new(rng, of, (0, 0), SHORT, record));
        }
    }
}

// Tails from which the frame's start comes at each bit, and tails past it.
fn write_rooms(rng: &mut Rng, len: usize, mut take: impl FnMut(Write)) {
    for of in Config::all() {
        for tail in 8 * len - MOST - 8..=8 * len + 8 {
            for _ in 0..4 {
                let (head, record) = (rng.below(len + 4), Record::any(rng, of));
                take(Write::new(rng, of, (head, tail), len, record));
            }
        }
    }
}

fn write_far(rng: &mut Rng, len: usize, mut take: impl FnMut(Write)) {
    for of in Config::all() {
        for at in far() {
            let record = Record::any(rng, of);
            take(Write::new(rng, of, at, len, record));
        }
    }
}

fn random_write(rng: &mut Rng) -> Write {
    let (of, len) = random_config_and_len(rng);
    let at = match rng.below(16) {
        0..=9 => (0, 0),
        10..=13 => (rng.below(len + 4), rng.below(8 * len - MOST + 1)),
        14 => (rng.below(len + 4), 8 * len - rng.below(MOST + 1)),
        _ => (rng.below(FAR + 1), rng.below(8 * (len + 4))),
    };
    let record = Record::any(rng, of);
    Write::new(rng, of, at, len, record)
}

pub fn run(out: &mut Records, seed: u64, count: usize) {
    let rng = &mut Rng::new(seed);
    read_limits(rng, |case| case.put(out));
    write_limits(rng, |case| case.put(out));
    for len in [SHORT, 21, 40] {
        read_rooms(rng, len, |_, case| case.put(out));
        write_rooms(rng, len, |case| case.put(out));
    }
    for len in [SHORT, 400] {
        read_far(rng, len, |case| case.put(out));
        write_far(rng, len, |case| case.put(out));
    }
    for i in 0..count {
        match i % 2 {
            0 => random_read(rng).put(out),
            _ => random_write(rng).put(out),
        }
    }
}

// Past the domain: the first field is refused 9 with its cursor, whatever that is, and the Rust is not asked.
fn put_beyond(rng: &mut Rng, out: &mut Records, of: Config, at: (usize, usize)) {
    let width = if of.fs_ind == 0 { of.lastnz_bits() } else { of.bandwidth_bits() };
    let answer = refused(9, &[width, at.1]);
    let (frame, record) = (rng.bytes(SHORT), Record::any(rng, of));
    out.put(33, (&in_call(of, at, &[]), &frame), &answer);
    out.put(34, (&in_call(of, at, &record.numbers()), &frame), &answer);
}

// Every kind of record, the limits, one case of each class where room ends, then some at random, at the far cursors and past the domain.
pub fn sample(out: &mut Records) {
    let rng = &mut Rng::new(0);
    let pick = &mut Rng::new(1);
    for of in Config::all() {
        for kind in kinds() {
            let bandwidth = rng.below(of.fs_ind + 1);
            bandwidth_read(rng, of, bandwidth, kind).put(out);
            let record = Record::new(rng, of, bandwidth, kind);
            Write::new(rng, of, (0, 0), SHORT, record).put(out);
        }
        for bandwidth in 0..1 << of.bandwidth_bits() {
            let kind = (rng.below(4), rng.below(2));
            bandwidth_read(rng, of, bandwidth, kind).put(out);
        }
        for pairs in [0, of.ne() / 2 - 1, of.ne() / 2, (1 << of.lastnz_bits()) - 1] {
            pairs_read(rng, of, pairs).put(out);
        }
    }
    let configs: Vec<Config> = Config::all().collect();
    for joint in joints() {
        let (of, part) = (configs[rng.below(10)], rng.below(2 << joint.0));
        joint_read(rng, of, joint, part).put(out);
    }

    // by the place that the room ends at, and by width and bit index
    let (mut places, mut fields) = (OneOfEach::new(), OneOfEach::new());
    read_rooms(rng, SHORT, |record, case| {
        let Walk { tail, refusal, panics, .. } = case.walk();
        let number = refusal.and_then(|refusal| refusal.refusal());
        places.take(pick, (case.of, number, panics, tail - case.at.1, record.bandwidth >= 3), case)
    });
    read_rooms(rng, SHORT, |_, case| {
        let Walk { tail, refusal, panics, .. } = case.walk();
        if let Some(refusal) = refusal {
            fields.take(pick, (case.of, panics, refusal.numbers.get(1).map(|n| *n as u8), tail % 8), case)
        }
    });
    places.cases().chain(fields.cases()).for_each(|case| case.put(out));
    // by how far from the frame's start the last bit is
    let mut rooms = OneOfEach::new();
    write_rooms(rng, SHORT, |case| {
        let bits: usize = case.record.fields(case.of).iter().map(|(width, _)| width).sum();
        let end = (case.at.1 + bits).max(8 * SHORT - 4).min(8 * SHORT + 5);
        rooms.take(pick, (case.of, end), case)
    });
    rooms.cases().for_each(|case| case.put(out));

    (0..100).for_each(|_| random_read(rng).put(out));
    (0..100).for_each(|_| random_write(rng).put(out));
    read_far(rng, SHORT, |case| {
        if pick.below(8) == 0 {
            case.put(out)
        }
    });
    for (at, of) in beyond().into_iter().zip(Config::all()) {
        put_beyond(rng, out, of, at);
    }
}
