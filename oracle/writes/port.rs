// What this repository's code makes of a record, through the calls that it exports.

use super::content::{Case, Content, Refused};
use crate::frames::sets::Lent;

// what the lent slices hold before a call, so that what is left alone shows
const BYTE: u8 = 0xa5;
pub const NUMBER: usize = 0x5a5a_a5a5_5a5a_a5a5;
// what a refusal lays over the numbers: two values, a step and its two numbers
const NUMBERS: usize = 5;

// A frame, or a refusal.
pub type Answer = Result<Vec<u8>, Refused>;

mod exported {
    extern "C" {
        pub fn lc3_write_frame(
            fs_ind: usize,
            duration: usize,
            reading: usize,
            lookup: *const u8,
            lookup_count: usize,
            frequencies: *const u16,
            frequencies_count: usize,
            bits: *const u16,
            bits_count: usize,
            orders: *const u16,
            orders_count: usize,
            coefficients: *const u16,
            coefficients_count: usize,
            words: *const u32,
            words_count: usize,
            first_order: usize,
            second_order: usize,
            indices: *const usize,
            indices_count: usize,
            lines: *const i16,
            lines_count: usize,
            residual: *const u8,
            residual_count: usize,
            frame: *mut u8,
            frame_count: usize,
            numbers: *mut usize,
            numbers_count: usize,
        ) -> u32;
        pub fn lc3_write_field(
            fs_ind: usize,
            duration: usize,
            reading: usize,
            lookup: *const u8,
            lookup_count: usize,
            frequencies: *const u16,
            frequencies_count: usize,
            bits: *const u16,
            bits_count: usize,
            orders: *const u16,
            orders_count: usize,
            coefficients: *const u16,
            coefficients_count: usize,
            words: *const u32,
            words_count: usize,
            first_order: usize,
            second_order: usize,
            indices: *const usize,
            indices_count: usize,
            lines: *const i16,
            lines_count: usize,
            residual: *const u8,
            residual_count: usize,
            buffer: *mut u8,
            buffer_count: usize,
            offset: usize,
            bytes: usize,
            numbers: *mut usize,
            numbers_count: usize,
        ) -> u32;
    }
}

// The slices of a call that a host may lend at any length, beside the tables.
struct Slices<'a> {
    words: &'a [u32],
    indices: &'a [usize],
    frame: Vec<u8>,
    numbers: Vec<usize>,
}

fn call(of: [usize; 3], set: &Lent, content: &Content, to: &mut Slices) -> u32 {
    // a slice goes as its place and its count, and the call keeps to both
    unsafe {
        exported::lc3_write_frame(
            of[0],
            of[1],
            of[2],
            set.lookup.as_ptr(),
            set.lookup.len(),
            set.frequencies.as_ptr(),
            set.frequencies.len(),
            set.bits.as_ptr(),
            set.bits.len(),
            set.orders.as_ptr(),
            set.orders.len(),
            set.coefficients.as_ptr(),
            set.coefficients.len(),
            to.words.as_ptr(),
            to.words.len(),
            content.orders[0],
            content.orders[1],
            to.indices.as_ptr(),
            to.indices.len(),
            content.lines.as_ptr(),
            content.lines.len(),
            content.residual.as_ptr(),
            content.residual.len(),
            to.frame.as_mut_ptr(),
            to.frame.len(),
            to.numbers.as_mut_ptr(),
            to.numbers.len(),
        )
    }
}

// A field of so many bytes of frame at an offset of a buffer.
pub fn call_field(
    of: [usize; 3],
    set: &Lent,
    content: &Content,
    [offset, bytes]: [usize; 2],
    buffer: &mut [u8],
    numbers: &mut [usize],
) -> u32 {
    unsafe {
        exported::lc3_write_field(
            of[0],
            of[1],
            of[2],
            set.lookup.as_ptr(),
            set.lookup.len(),
            set.frequencies.as_ptr(),
            set.frequencies.len(),
            set.bits.as_ptr(),
            set.bits.len(),
            set.orders.as_ptr(),
            set.orders.len(),
            set.coefficients.as_ptr(),
            set.coefficients.len(),
            content.side.as_ptr(),
            content.side.len(),
            content.orders[0],
            content.orders[1],
            content.indices.as_ptr(),
            content.indices.len(),
            content.lines.as_ptr(),
            content.lines.len(),
            content.residual.as_ptr(),
            content.residual.len(),
            buffer.as_mut_ptr(),
            buffer.len(),
            offset,
            bytes,
            numbers.as_mut_ptr(),
            numbers.len(),
        )
    }
}

// An answer, with what was written judged by the rules for lent memory: a refusal leaves the frame, an accepted one the numbers.
pub fn lent(of: [usize; 3], set: &Lent, content: &Content, len: usize, cut: [usize; 3]) -> Result<Answer, String> {
    let [words, indices, numbers] = cut;
    let mut to = Slices {
        words: &content.side[..words],
        indices: &content.indices[..indices],
        frame: vec![BYTE; len],
        numbers: vec![NUMBER; numbers],
    };
    let number = call(of, set, content, &mut to);
    if number == 0 {
        return match to.numbers.iter().all(|n| *n == NUMBER) {
            true => Ok(Ok(to.frame)),
            false => Err("accepted, and the numbers are written".to_string()),
        };
    }
    if to.frame.iter().any(|byte| *byte != BYTE) {
        return Err(format!("refused {}, and the frame is written", number));
    }
    let told = to.numbers.iter().enumerate().skip(1).all(|(k, n)| *n == if k < NUMBERS { 0 } else { NUMBER });
    match told {
        true => Ok(Err(Refused(number, to.numbers.first().copied().unwrap_or(0)))),
        false => Err(format!("refused {}, and the numbers are {:?}", number, to.numbers)),
    }
}

pub fn write(case: &Case, set: &Lent, reading: usize) -> Result<Answer, String> {
    let of = [case.fs_ind, case.duration, reading];
    let answer = lent(of, set, &case.content, case.len, [19, 16, NUMBERS + case.len % 3])?;
    short(case, set, reading)?;
    Ok(answer)
}

// In every eighth case slices that are shorter: what is missing counts as 0, and is told as far as there is room.
fn short(case: &Case, set: &Lent, reading: usize) -> Result<(), String> {
    let at = case.len + case.content.lastnz();
    if at % 8 != 0 {
        return Ok(());
    }
    let (of, cut) = ([case.fs_ind, case.duration, reading], [at / 8 % 20, at / 16 % 17, at / 8 % 5]);
    let mut whole = case.content.clone();
    whole.side[cut[0]..].fill(0);
    whole.indices[cut[1]..].fill(0);
    let said = lent(of, set, &case.content, case.len, cut)?;
    let mut expected = lent(of, set, &whole, case.len, [19, 16, NUMBERS])?;
    if let (Err(refused), 0) = (&mut expected, cut[2]) {
        refused.1 = 0;
    }
    match said == expected {
        true => Ok(()),
        false => Err(format!("by shorter slices {:?}, with zeros for what is missing {:?}", said, expected)),
    }
}
