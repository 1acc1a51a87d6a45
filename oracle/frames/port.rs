// What this repository's code makes of a case, through the calls that it exports.

use super::answers::{Answer, Case, Read, Refused, SIDE};
use super::sets::Lent;
use super::tally::Tally;
use crate::lc3::tables::Set;

// what the lent slices hold before a call, so that what is left alone shows
const LINE: i32 = -0x5a5a_5a5b;
const WORD: u32 = 0xa5a5_a5a5;
const NUMBER: usize = 0x5a5a_a5a5_5a5a_a5a5;
const BIT: u8 = 0xa5;
// the lists that are laid over them
const WORDS: usize = SIDE + 3;
const NUMBERS: usize = 5;
const INDICES: usize = 16;
const BITS: usize = 400;

// The slices that a call is lent, and which of them it left as they were.
pub struct Slices {
    pub lines: Vec<i32>,
    words: Vec<u32>,
    numbers: Vec<usize>,
    indices: Vec<usize>,
    residual: Vec<u8>,
}

impl Slices {
    // All longer than the lists by so many.
    pub fn new(room: usize, more: usize) -> Self {
        Slices {
            lines: vec![LINE; room],
            words: vec![WORD; WORDS + more],
            numbers: vec![NUMBER; NUMBERS + more],
            indices: vec![NUMBER; INDICES + more],
            residual: vec![BIT; BITS + more],
        }
    }

    // Nothing is written behind the lists.
    fn kept_behind(&self) -> bool {
        self.words[WORDS..].iter().all(|n| *n == WORD)
            && self.numbers[NUMBERS..].iter().all(|n| *n == NUMBER)
            && self.indices[INDICES..].iter().all(|n| *n == NUMBER)
            && self.residual[BITS..].iter().all(|n| *n == BIT)
    }

    // A refusal writes numbers alone.
    fn kept(&self) -> bool {
        self.lines.iter().all(|n| *n == LINE)
            && self.words.iter().all(|n| *n == WORD)
            && self.indices.iter().all(|n| *n == NUMBER)
            && self.residual.iter().all(|n| *n == BIT)
    }
}

#[cfg(not(rust_alone))]
mod exported {
    extern "C" {
        pub fn lc3_read_frame(
            fs_ind: usize,
            duration: usize,
            reading: usize,
            lookup: *const u8,
            lookup_count: usize,
            frequencies: *const u16,
            frequencies_count: usize,
            bits: *const u16,
            bits_count: usize,
            orders: *const u16,
            orders_count: usize,
            coefficients: *const u16,
            coefficients_count: usize,
            frame: *const u8,
            frame_count: usize,
            lines: *mut i32,
            lines_count: usize,
            words: *mut u32,
            words_count: usize,
            numbers: *mut usize,
            numbers_count: usize,
            indices: *mut usize,
            indices_count: usize,
            residual: *mut u8,
            residual_count: usize,
        ) -> u32;
        pub fn lc3_read_frames(
            fs_ind: usize,
            duration: usize,
            reading: usize,
            lookup: *const u8,
            lookup_count: usize,
            frequencies: *const u16,
            frequencies_count: usize,
            bits: *const u16,
            bits_count: usize,
            orders: *const u16,
            orders_count: usize,
            coefficients: *const u16,
            coefficients_count: usize,
            frames: *const u8,
            frames_count: usize,
            bytes: usize,
            lines: *mut i32,
            lines_count: usize,
        ) -> usize;
        pub fn lc3_tables_pass(
            lookup: *const u8,
            lookup_count: usize,
            frequencies: *const u16,
            frequencies_count: usize,
            bits: *const u16,
            bits_count: usize,
            orders: *const u16,
            orders_count: usize,
            coefficients: *const u16,
            coefficients_count: usize,
        ) -> u32;
    }
}

#[cfg(not(rust_alone))]
pub fn call(of: [usize; 3], set: &Lent, frame: &[u8], to: &mut Slices) -> u32 {
    // a slice goes as its place and its count, and the call keeps to both
    unsafe {
        exported::lc3_read_frame(
            of[0],
            of[1],
            of[2],
            set.lookup.as_ptr(),
            set.lookup.len(),
            set.frequencies.as_ptr(),
            set.frequencies.len(),
            set.bits.as_ptr(),
            set.bits.len(),
            set.orders.as_ptr(),
            set.orders.len(),
            set.coefficients.as_ptr(),
            set.coefficients.len(),
            frame.as_ptr(),
            frame.len(),
            to.lines.as_mut_ptr(),
            to.lines.len(),
            to.words.as_mut_ptr(),
            to.words.len(),
            to.numbers.as_mut_ptr(),
            to.numbers.len(),
            to.indices.as_mut_ptr(),
            to.indices.len(),
            to.residual.as_mut_ptr(),
            to.residual.len(),
        )
    }
}

// Frames of one length in one call: how many are accepted.
#[cfg(not(rust_alone))]
pub fn call_all(of: [usize; 3], set: &Lent, frames: &[u8], bytes: usize, lines: &mut [i32]) -> usize {
    unsafe {
        exported::lc3_read_frames(
            of[0],
            of[1],
            of[2],
            set.lookup.as_ptr(),
            set.lookup.len(),
            set.frequencies.as_ptr(),
            set.frequencies.len(),
            set.bits.as_ptr(),
            set.bits.len(),
            set.orders.as_ptr(),
            set.orders.len(),
            set.coefficients.as_ptr(),
            set.coefficients.len(),
            frames.as_ptr(),
            frames.len(),
            bytes,
            lines.as_mut_ptr(),
            lines.len(),
        )
    }
}

// Whether a table set passes.
#[cfg(not(rust_alone))]
pub fn check(set: &Lent) -> bool {
    let passes = unsafe {
        exported::lc3_tables_pass(
            set.lookup.as_ptr(),
            set.lookup.len(),
            set.frequencies.as_ptr(),
            set.frequencies.len(),
            set.bits.as_ptr(),
            set.bits.len(),
            set.orders.as_ptr(),
            set.orders.len(),
            set.coefficients.as_ptr(),
            set.coefficients.len(),
        )
    };
    passes == 1
}

// An answer of the port, with what it wrote judged by the rules for lent memory.
#[cfg(not(rust_alone))]
pub fn read(case: &Case, set: &Lent, reading: usize) -> Result<Answer, String> {
    let (number, to) = called(case, set, reading);
    let answer = answer_of(number, &to, case.frame.len())?;
    short(case, set, reading, &to, number)?;
    together(case, set, reading)?;
    Ok(answer)
}

// The same by one call alone.
#[cfg(not(rust_alone))]
pub fn read_once(case: &Case, set: &Lent, reading: usize) -> Result<Answer, String> {
    let (number, to) = called(case, set, reading);
    answer_of(number, &to, case.frame.len())
}

#[cfg(not(rust_alone))]
fn called(case: &Case, set: &Lent, reading: usize) -> (u32, Slices) {
    let mut to = Slices::new(case.room, case.frame.len() % 3);
    let number = call([case.fs_ind, case.duration, reading], set, &case.frame, &mut to);
    (number, to)
}

// the Rust alone: nothing is linked, and its own answer stands in
#[cfg(rust_alone)]
pub fn read(case: &Case, _: &Lent, reading: usize) -> Result<Answer, String> {
    let mut answer = super::rust::read(case);
    if let (Some(pair), 1) = (super::rust::damaged(case), reading) {
        return Ok(Answer::Refused(Refused::new(19, &[pair], &[])));
    }
    if let (Answer::Read(read), 1) = (&mut answer, reading) {
        read.zero = read.zero && read.noise() == 7;
    }
    Ok(answer)
}

#[allow(dead_code)]
fn answer_of(number: u32, to: &Slices, len: usize) -> Result<Answer, String> {
    if !to.kept_behind() {
        return Err("something is written behind the lists".to_string());
    }
    let n = &to.numbers;
    if number != 0 {
        return match to.kept() {
            true => Ok(Answer::Refused(Refused::new(number, &n[..2], &n[2..5]))),
            false => Err(format!("refused {}, and a lent slice is written", number)),
        };
    }
    let (flag, range) = (to.words[SIDE + 1], to.words[SIDE + 2]);
    if flag > 1 || !(0x10000..=0xff_ffff).contains(&range) {
        return Err(format!("a zero flag of {}, a range of {}", flag, range));
    }
    let count = n[2];
    if count > BITS || to.residual[count..BITS].iter().any(|bit| *bit != 0) {
        return Err(format!("{} residual bits, and something behind them", count));
    }
    let read = Read {
        side: to.words[..SIDE].try_into().expect("the side information's numbers"),
        orders: [n[0], n[1]],
        indices: to.indices[..INDICES].try_into().expect("sixteen indices"),
        residual: to.residual[..count].to_vec(),
        seed: to.words[SIDE],
        zero: flag == 1,
        head: n[3],
        tail: n[4],
        range,
        lines: to.lines.clone(),
    };
    // the bits that are left are known where they cut the residual list short
    let used = read.used();
    let nonzero = read.lines.iter().filter(|x| **x != 0).count();
    match read.least_bits() || count == nonzero {
        true if used <= 8 * len => Ok(Answer::Read(read)),
        false if used == 8 * len => Ok(Answer::Read(read)),
        _ => Err(format!("{} bits used of {}, {} residual bits of {} lines", used, 8 * len, count, nonzero)),
    }
}

// In every eighth case once more, into slices that are shorter than the lists: each holds the list's front.
#[cfg(not(rust_alone))]
fn short(case: &Case, set: &Lent, reading: usize, whole: &Slices, number: u32) -> Result<(), String> {
    let at = case.frame[0] as usize;
    if at % 8 != 0 {
        return Ok(());
    }
    let mut to = Slices::new(case.room, 0);
    to.words.truncate(at % WORDS);
    to.numbers.truncate(at / 8 % NUMBERS);
    to.indices.truncate(at / 8 % INDICES);
    to.residual.truncate(at);
    let again = call([case.fs_ind, case.duration, reading], set, &case.frame, &mut to);
    let same = again == number
        && to.lines == whole.lines
        && whole.words.starts_with(&to.words)
        && whole.numbers.starts_with(&to.numbers)
        && whole.indices.starts_with(&to.indices)
        && whole.residual.starts_with(&to.residual);
    if same {
        Ok(())
    } else {
        Err("into shorter slices the answer is another".to_string())
    }
}

// In every eighth case the frame between two others of its length, and some bytes more: what single calls answer one by one.
#[cfg(not(rust_alone))]
fn together(case: &Case, set: &Lent, reading: usize) -> Result<(), String> {
    let (of, bytes) = ([case.fs_ind, case.duration, reading], case.frame.len());
    if case.frame[0] % 8 != 1 {
        return Ok(());
    }
    let other = |byte: u8| case.frame.iter().enumerate().map(move |(k, b)| if k < 3 { b ^ byte } else { *b });
    let mut frames: Vec<u8> = other(0x15).chain(case.frame.iter().copied()).chain(other(0xc2)).collect();
    let mut single = Slices::new(case.room, 0);
    let accepted = frames.chunks(bytes).filter(|frame| call(of, set, frame, &mut single) == 0).count();
    frames.extend(&case.frame[..case.frame[1] as usize % bytes]);
    let mut lines = vec![LINE; case.room];
    let said = call_all(of, set, &frames, bytes, &mut lines);
    if said == accepted && lines == single.lines {
        Ok(())
    } else {
        Err(format!("three frames in one call: {} accepted, one by one {}", said, accepted))
    }
}

#[cfg(rust_alone)]
pub fn limits(_: &mut Tally) -> Result<(), String> {
    Ok(())
}

// What the Rust has no check for: refusals 1 to 4, by document 01's rule and in its order.
#[cfg(not(rust_alone))]
pub fn limits(tally: &mut Tally) -> Result<(), String> {
    use crate::lc3::tables::FLAT;
    let sound = Lent::of(&FLAT);
    let mut wrong = Lent::of(&FLAT);
    wrong.lookup[4095] = 64;
    let mut wrong_row = Lent::of(&FLAT);
    wrong_row.coefficients[135] += 1;
    let mut short = Lent::of(&FLAT);
    short.bits.pop();
    if [&sound, &wrong, &wrong_row, &short].map(check) != [true, false, false, false] {
        return Err("the table set's check says otherwise".to_string());
    }
    let frame = |len| vec![0; len];
    let cases: [(&Lent, [usize; 3], usize, usize, u32, &[usize]); 17] = [
        (&sound, [0, 0, 0], 20, 80, 0, &[]),
        (&sound, [0, 0, 1], 400, 80, 0, &[]),
        (&sound, [5, 0, 0], 20, 480, 1, &[]),
        (&sound, [0, 2, 0], 20, 480, 1, &[]),
        (&sound, [0, 0, 2], 20, 480, 1, &[]),
        (&sound, [usize::MAX, usize::MAX, usize::MAX], 20, 480, 1, &[]),
        (&wrong, [5, 0, 0], 19, 0, 1, &[]),
        (&sound, [0, 0, 0], 0, 80, 2, &[0]),
        (&sound, [0, 0, 0], 19, 80, 2, &[19]),
        (&sound, [0, 0, 0], 401, 80, 2, &[401]),
        (&wrong, [0, 0, 0], 19, 0, 2, &[19]),
        (&wrong, [0, 0, 0], 20, 80, 3, &[]),
        (&wrong_row, [0, 0, 0], 20, 80, 3, &[]),
        (&short, [0, 0, 0], 20, 0, 3, &[]),
        (&sound, [0, 0, 0], 20, 79, 4, &[79]),
        (&sound, [4, 0, 1], 400, 399, 4, &[399]),
        (&sound, [4, 1, 1], 400, 299, 4, &[299]),
    ];
    for (set, of, len, room, number, values) in cases {
        let mut to = Slices::new(room, 1);
        let frame = frame(len);
        let said = call(of, set, &frame, &mut to);
        tally.add(&format!(
            "limits: {}",
            if number == 0 { "accepted".to_string() } else { format!("refused {}", number) }
        ));
        let answer = answer_of(said, &to, len)?;
        let right = match &answer {
            Answer::Read(_) => number == 0,
            Answer::Refused(e) => *e == Refused::new(number, values, &[]),
        };
        if !right {
            return Err(format!("{:?}, {} bytes, {} lines: {:?}", of, len, room, answer));
        }
        let mut lines = vec![LINE; room];
        let all = call_all(of, set, &[&frame[..], &frame[..]].concat(), len, &mut lines);
        if all != 2 * (number == 0) as usize || lines != to.lines {
            return Err(format!("{:?}, two of {} bytes, {} lines: {} accepted", of, len, room, all));
        }
    }
    Ok(())
}

#[cfg(rust_alone)]
pub fn tables(_: &Set, _: &mut Tally) -> Result<(), String> {
    Ok(())
}

// The check of a table set, whole and changed in one way at a time.
#[cfg(not(rust_alone))]
pub fn tables(set: &Set, tally: &mut Tally) -> Result<(), String> {
    let whole = Lent::of(set);
    for (at, (passes, changed)) in super::sets::changed(&whole).into_iter().enumerate() {
        if check(&changed) != passes || !check(&whole) {
            return Err(format!("the table set's check says otherwise of change {}", at));
        }
        tally.add(if passes { "tables: passed" } else { "tables: refused 3" });
    }
    Ok(())
}

#[cfg(rust_alone)]
pub fn hand(_: &mut Tally) -> Result<(), String> {
    Ok(())
}

// Document 01's frame of 20 zero bytes by the flat set, and what its last byte, which has lastnz, makes of it.
#[cfg(not(rust_alone))]
pub fn hand(tally: &mut Tally) -> Result<(), String> {
    use crate::lc3::tables::FLAT;
    let set = Lent::of(&FLAT);
    for last in 0..=40 {
        let mut frame = vec![0; 20];
        frame[19] = last;
        let mut to = Slices::new(80, 1);
        let said = call([0, 0, 0], &set, &frame, &mut to);
        let answer = answer_of(said, &to, 20)?;
        let right = match (&answer, last) {
            (Answer::Read(read), 0) => {
                let zeros = read.lines.iter().all(|x| *x == 0) && read.residual.is_empty() && read.orders == [0, 0];
                let side = read
                    .side
                    .iter()
                    .enumerate()
                    .all(|(k, v)| *v == [0, 2, 0, 0, 0, 0, 0, 0, 0, 0, 1][..].get(k).copied().unwrap_or(0));
                zeros && side && read.seed == 0 && read.zero && (read.head, read.tail) == (3, 58)
            }
            (Answer::Read(_), 1..=24) => true,
            (Answer::Refused(e), 25..=34) => *e == Refused::new(12, &[], &[]),
            (Answer::Refused(e), 35..=39) => *e == Refused::new(10, &[20], &[5, 35, 0]),
            (Answer::Refused(e), 40) => *e == Refused::new(6, &[82, 80], &[]),
            _ => false,
        };
        if !right {
            return Err(format!("19 zero bytes and {}: {:?}", last, answer));
        }
        tally.add("checked by hand");
    }
    cursor(&set, tally)?;
    damage(&set, tally)
}

// The frames of request P4, by the flat set: in the standard reading 19 with pair 6, though its tail bits have no room, and with pair 0
// in least-bit mode, where level 0 has no tail bits. The crate reading says of them what it said before.
#[cfg(not(rust_alone))]
fn damage(set: &Lent, tally: &mut Tally) -> Result<(), String> {
    let frames: [([u8; 20], usize, &[usize], [usize; 3]); 2] = [
        ([0, 0, 0, 255, 191, 188, 131, 214, 110, 212, 64, 0, 0, 18, 59, 250, 0, 0, 0, 6], 6, &[1, 84], [6, 6, 13]),
        ([255, 248, 56, 131, 214, 110, 212, 64, 0, 15, 255, 255, 252, 18, 59, 250, 0, 0, 0, 64], 0, &[], [0, 0, 0]),
    ];
    for (frame, pair, values, step) in frames {
        for reading in [0, 1] {
            let mut to = Slices::new(80, 1);
            let said = call([0, 0, reading], set, &frame, &mut to);
            let answer = answer_of(said, &to, 20)?;
            let right = match &answer {
                Answer::Refused(e) if reading == 1 => *e == Refused::new(19, &[pair], &[]),
                Answer::Refused(e) => *e == Refused::new(9, values, &step),
                Answer::Read(read) => reading == 0 && values.is_empty() && read.lines[1].unsigned_abs() >= 4 << 14,
            };
            if !right {
                return Err(format!("the frame of request P4 with pair {} in reading {}: {:?}", pair, reading, answer));
            }
            tally.add("checked by hand");
        }
    }
    Ok(())
}

// The frame of request P6, by the flat set: 9 tells the tail cursor before the bit that is missing, in both readings.
#[cfg(not(rust_alone))]
fn cursor(set: &Lent, tally: &mut Tally) -> Result<(), String> {
    let frame: [u8; 20] = [0, 0, 0, 15, 251, 255, 131, 114, 164, 38, 246, 0, 0, 18, 59, 250, 0, 0, 0, 7];
    for reading in [0, 1] {
        let mut to = Slices::new(80, 1);
        let said = call([0, 0, reading], set, &frame, &mut to);
        let answer = answer_of(said, &to, 20)?;
        if answer != Answer::Refused(Refused::new(9, &[1, 82], &[6, 7, 12])) {
            return Err(format!("the frame of request P6 in reading {}: {:?}", reading, answer));
        }
        tally.add("checked by hand");
    }
    Ok(())
}
