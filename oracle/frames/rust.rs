// What the Rust makes of a case.

use super::answers::{Answer, Case, Read, Refused};
use crate::lc3::common::config::FrameDuration;
use crate::lc3::decoder::arithmetic_codec::{decode, door, ArithmeticCodecError, ArithmeticDecodeError};
use crate::lc3::decoder::buffer_reader::{BufferReader, BufferReaderError};
use crate::lc3::decoder::side_info_reader::{self, SideInfoError};
use crate::lc3::decoder::standard_codec;
use crate::lc3::side_info::SideInfo;
use std::panic::{catch_unwind, set_hook, take_hook, AssertUnwindSafe};
use std::sync::atomic::{AtomicBool, Ordering};

static CAUGHT: AtomicBool = AtomicBool::new(false);

// Keeps a panic of the Rust silent; one of this program's own still says where it was.
pub fn quiet_panics() {
    let loud = take_hook();
    set_hook(Box::new(move |info| {
        if !CAUGHT.load(Ordering::Relaxed) {
            loud(info)
        }
    }));
}

// A panic counts as the refusal of a single bit whose byte is not in the frame, and only where that is so.
pub fn read(case: &Case) -> Answer {
    returned(case).unwrap_or_else(|(head, tail)| {
        let length = case.frame.len();
        assert!(head + tail / 8 <= length + 2 && tail / 8 >= length, "the Rust panics on {:?}", case);
        Answer::Refused(Refused::new(9, &[1, tail], &[6]))
    })
}

// What the Rust returns; where it panics, its head and tail.
pub fn returned(case: &Case) -> Result<Answer, (usize, usize)> {
    let mut reader = BufferReader::new();
    let mut lines = vec![0x5a5a; case.room];
    CAUGHT.store(true, Ordering::Relaxed);
    let answer = catch_unwind(AssertUnwindSafe(|| by_rust(case, &mut reader, &mut lines)));
    CAUGHT.store(false, Ordering::Relaxed);
    let (head, tail) = (reader.get_head_byte_cursor(), reader.get_tail_bit_cursor());
    answer.map(|answer| with_cursor(answer, tail)).map_err(|_| (head, tail))
}

// The pair whose fourteenth escape is read, by the copy that stops there. Where the Rust panics or refuses, it does so before any.
pub fn damaged(case: &Case) -> Option<usize> {
    let duration = [FrameDuration::TenMs, FrameDuration::SevenPointFiveMs][case.duration];
    let mut reader = BufferReader::new();
    let side = side_info_reader::read(&case.frame, &mut reader, case.fs_ind, case.ne()).ok()?;
    let mut lines = vec![0; case.room];
    CAUGHT.store(true, Ordering::Relaxed);
    let answer = catch_unwind(AssertUnwindSafe(|| {
        standard_codec::decode(&case.frame, &mut reader, case.fs_ind, case.ne(), &side, &duration, &mut lines)
    }));
    CAUGHT.store(false, Ordering::Relaxed);
    match answer {
        Ok(Err(standard_codec::ArithmeticDecodeError::SpectralData(pair, 14, _))) => Some(pair),
        _ => None,
    }
}

// Of refusal 9 the Rust tells the bit index. A refused read moves no cursor, so its reader stands before the field: that is the tail
// cursor, if the bit index is it modulo 8. If not, the bit index stays, and differs.
fn with_cursor(mut answer: Answer, tail: usize) -> Answer {
    if let Answer::Refused(refused) = &mut answer {
        if refused.number == 9 && refused.values[1] == tail % 8 {
            refused.values[1] = tail;
        }
    }
    answer
}

// The reading alone, for a time: whether the frame is accepted.
pub fn time(case: &Case, lines: &mut [i32]) -> bool {
    let duration = [FrameDuration::TenMs, FrameDuration::SevenPointFiveMs][case.duration];
    let mut reader = BufferReader::new();
    let Ok(side) = side_info_reader::read(&case.frame, &mut reader, case.fs_ind, case.ne()) else { return false };
    decode(&case.frame, &mut reader, case.fs_ind, case.ne(), &side, &duration, lines).is_ok()
}

fn by_rust(case: &Case, reader: &mut BufferReader, lines: &mut [i32]) -> Answer {
    let duration = [FrameDuration::TenMs, FrameDuration::SevenPointFiveMs][case.duration];
    let (frame, ne) = (&case.frame[..], case.ne());
    let side = match side_info_reader::read(frame, reader, case.fs_ind, ne) {
        Ok(side) => side,
        Err(e) => return Answer::Refused(side_refusal(e)),
    };
    match decode(frame, reader, case.fs_ind, ne, &side, &duration, lines) {
        Err(e) => Answer::Refused(refusal(e)),
        Ok(data) => Answer::Read(Read {
            side: numbers(&side),
            orders: data.reflect_coef_order,
            indices: data.reflect_coef_ints,
            residual: data.residual_bits.iter().map(|bit| *bit as u8).collect(),
            seed: data.noise_filling_seed as u32,
            zero: data.is_zero_frame,
            head: reader.get_head_byte_cursor(),
            tail: reader.get_tail_bit_cursor(),
            range: range(case, &side, reader.get_head_byte_cursor()),
            lines: lines.to_vec(),
        }),
    }
}

// The coder's range behind an accepted frame, which `decode` keeps to itself.
fn range(case: &Case, side: &SideInfo, head: usize) -> u32 {
    let duration = [FrameDuration::TenMs, FrameDuration::SevenPointFiveMs][case.duration];
    let mut reader = BufferReader::new();
    let mut lines = [0; 400];
    side_info_reader::read(&case.frame, &mut reader, case.fs_ind, case.ne())
        .expect("the side information is read again");
    let (_, range) = door::behind_lines(&case.frame, &mut reader, case.fs_ind, case.ne(), side, &duration, &mut lines)
        .expect("the lines are read again");
    assert_eq!(reader.get_head_byte_cursor(), head, "the lines end elsewhere");
    range
}

fn numbers(s: &SideInfo) -> [u32; 19] {
    let (sns, pitch, tns) = (&s.sns_vq, &s.long_term_post_filter_info, s.reflect_coef_order_ari_input);
    [
        s.bandwidth as usize,
        s.lastnz,
        s.lsb_mode as usize,
        s.global_gain_index,
        tns[0],
        tns[1],
        pitch.pitch_present as usize,
        sns.ind_lf,
        sns.ind_hf,
        sns.submode_msb as usize,
        sns.submode_lsb as usize,
        sns.g_ind,
        sns.ls_inda,
        sns.idx_a,
        sns.ls_indb,
        sns.idx_b,
        pitch.is_active as usize,
        pitch.pitch_index,
        s.noise_factor,
    ]
    .map(|n| n as u32)
}

fn buffer(e: BufferReaderError) -> (u32, Vec<usize>) {
    use BufferReaderError::*;
    match e {
        ReadByteOutOfBounds(head) | ReadU24OutOfBounds(head) => (10, vec![head]),
        BigEndianBitReaderReadUsizeNumBitsOutOfRange(width, place) => (9, vec![width, place]),
        BigEndianBitReaderReadBoolOutOfRange(place) => (9, vec![1, place]),
    }
}

fn codec(e: ArithmeticCodecError) -> (u32, Vec<usize>) {
    match e {
        ArithmeticCodecError::AcRangeFlOutOfRange(low, limit) => (11, vec![low as usize, limit as usize]),
        ArithmeticCodecError::BufferReader(e) => buffer(e),
    }
}

fn side_refusal(e: SideInfoError) -> Refused {
    use SideInfoError::*;
    let ((number, values), step) = match e {
        BandwidthIdxOutOfRange(bandwidth) => ((5, vec![bandwidth]), 0),
        LastNonZeroTupleGreaterThanYLen(lastnz, ne) => ((6, vec![lastnz, ne]), 0),
        PlcTriggerSns1OutOfRange(j) => ((7, vec![j]), 0),
        PlcTriggerSns2OutOfRange(j) => ((8, vec![j]), 0),
        BufferReaderError(e) => (buffer(e), 1),
        NotImplemented => unreachable!("the Rust never makes it"),
    };
    Refused::new(number, &values, &[step])
}

fn refusal(e: ArithmeticDecodeError) -> Refused {
    use ArithmeticDecodeError::*;
    let ((number, values), step) = match e {
        ArithmeticCodec(e) => (codec(e), vec![2]),
        TnsOrder(f, e) => (codec(e), vec![3, f]),
        TnsCoef(f, k, e) => (codec(e), vec![4, f, k]),
        SpectralData(pair, level, e) => (codec(e), vec![5, pair, level]),
        SpectralBoolData(pair, level, e) => (buffer(e), vec![6, pair, level]),
        NegativeResidualNumBits => ((12, vec![]), vec![0]),
        e => panic!("{:?}: a residual bit is never refused behind check 12", e),
    };
    Refused::new(number, &values, &step)
}
