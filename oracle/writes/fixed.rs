// Records with a known answer, and refusals 1 to 4, which the Rust has no checks for.

use super::content::*;
use super::field::{self, Place};
use super::make::Cheap;
use super::tally::Tally;
use super::{port, rust};
use crate::frames::answers::{self, Answer};
use crate::frames::port as reader;
use crate::frames::sets::Lent;
use crate::lc3::tables::FLAT;
use crate::records::Rng;

// A record with the side information 0 but for lastnz, at `fs_ind` 0 and 10 ms.
fn plain(len: usize, lastnz: usize, front: &[i16], residual: &[u8]) -> Case {
    let mut side = [0; SIDE];
    side[LASTNZ] = lastnz as u32;
    let mut lines = front.to_vec();
    lines.resize(80, 0);
    let content = Content { side, orders: [0; 2], indices: [0; 16], lines, residual: residual.to_vec() };
    Case { fs_ind: 0, duration: 0, len, content, spoilt: None }
}

fn bytes(hex: &str) -> Vec<u8> {
    hex.as_bytes()
        .chunks(2)
        .map(|two| (two[0] as char).to_digit(16).zip((two[1] as char).to_digit(16)))
        .map(|two| two.map(|(high, low)| (16 * high + low) as u8).expect("a byte in hex"))
        .collect()
}

pub fn all(tally: &mut Tally) -> Result<(), String> {
    forecast(tally)?;
    reserved(tally)?;
    finish(tally)?;
    levels(tally)?;
    limits(tally)?;
    fields(tally)
}

fn holds(is_so: bool, what: &str, tally: &mut Tally) -> Result<(), String> {
    tally.add("records with a known answer");
    if is_so {
        Ok(())
    } else {
        Err(format!("a record with a known answer: {}", what))
    }
}

// Cheap pairs fill the tail to bit 154 of 160, and E is 3. The standard sends three residual bits; the Rust reckons E + 8 and
// sends none.
fn forecast(tally: &mut Tally) -> Result<(), String> {
    let set = Lent::of(&Cheap { escapes: 3, symbol: 15 }.set());
    let case = plain(20, 24, &[24; 24], &[1; 24]);
    let frame = bytes("a0000000000000000000000000123bfa0000000b");
    let need = rust::need(&case).ok_or("the Rust panics")?;
    holds((need.tail, need.reserved(), need.is_empty()) == (154, 3, true), "tail 154, E 3, nothing sent", tally)?;
    holds(rust::encode(&case).as_ref() == Some(&frame), "the Rust sends no residual bit", tally)?;
    holds(port::write(&case, &set, 0)? == Ok(frame.clone()), "no residual bit in reading 0", tally)?;
    // tail bits 154 to 156 lie in the first byte
    let mut longer = frame;
    longer[0] |= 0b0001_1100;
    holds(port::write(&case, &set, 1)? == Ok(longer), "three residual bits in reading 1", tally)
}

// E decides and not the bits sent: tail 90 and 70 bits sent fill 160 bits, and E is 71.
fn reserved(tally: &mut Tally) -> Result<(), String> {
    let set = Lent::of(&FLAT);
    let case = plain(20, 34, &[1; 32], &[]);
    let need = rust::need(&case).ok_or("the Rust panics")?;
    holds((need.tail, need.reserved()) == (90, 71), "tail 90, E 71", tally)?;
    for reading in 0..2 {
        holds(port::write(&case, &set, reading)? == Err(Refused(16, 0)), "refused 16 by E", tally)?;
        let longer = plain(21, 34, &[1; 32], &[]);
        holds(port::write(&longer, &set, reading)?.is_ok(), "accepted with a byte more", tally)?;
    }
    Ok(())
}

// The crate's finish sends nine bits where the standard's, with `high` cut to 24 bits, sends another.
fn finish(tally: &mut Tally) -> Result<(), String> {
    let set = Lent::of(&FLAT);
    let case = plain(20, 2, &[0, 6], &[]);
    let frames = [port::write(&case, &set, 0)?, port::write(&case, &set, 1)?].map(|frame| frame.unwrap_or_default());
    holds(frames[0].starts_with(&[0xfc, 0]), "fc 00 in reading 0", tally)?;
    holds(frames[0] != frames[1], "another end in reading 1", tally)
}

// Escape levels by pair and by line: what is written in either reading comes back whole in the standard reading alone.
fn levels(tally: &mut Tally) -> Result<(), String> {
    let set = Lent::of(&FLAT);
    let cases: [(&[i16], &[i32]); 2] = [(&[0, 0, 5, 0], &[0, 0, 4, 0]), (&[0, 0, 0, 0, 5, 7], &[0, 0, -1, 0, 4, 6])];
    for (front, in_crate) in cases {
        let mut case = plain(20, front.len(), front, &[]);
        case.content.side[LSB] = 1;
        for reading in 0..2 {
            let frame = port::write(&case, &set, reading)?.unwrap_or_default();
            let of = answers::Case { fs_ind: 0, duration: 0, frame, room: 80, real: false };
            let whole: Vec<i32> = front.iter().map(|line| *line as i32).collect();
            for (reading, lines) in [(0, in_crate), (1, &whole)] {
                let back = match reader::read(&of, &set, reading)? {
                    Answer::Read(read) => read.lines,
                    Answer::Refused(_) => Vec::new(),
                };
                let right = back.len() == 80 && back.starts_with(lines) && back[lines.len()..].iter().all(|x| *x == 0);
                holds(right, "a level looked up by line", tally)?;
            }
        }
    }
    Ok(())
}

// By document 01's rule and in its order, and before 13 to 16.
fn limits(tally: &mut Tally) -> Result<(), String> {
    let sound = Lent::of(&FLAT);
    let mut wrong = Lent::of(&FLAT);
    wrong.lookup[4095] = 64;
    let mut wrong_row = Lent::of(&FLAT);
    wrong_row.coefficients[135] += 1;
    let mut short = Lent::of(&FLAT);
    short.bits.pop();
    let right = plain(20, 2, &[], &[]).content;
    // breaks 13, 14 and 15
    let bad = plain(20, 3, &[i16::MIN], &[1; 2]).content;
    let cases: [(&Lent, [usize; 3], usize, usize, u32, usize); 18] = [
        (&sound, [0, 0, 0], 20, 80, 0, 0),
        (&sound, [4, 0, 1], 400, 400, 0, 0),
        (&sound, [4, 1, 1], 400, 300, 0, 0),
        (&sound, [5, 0, 0], 20, 480, 1, 0),
        (&sound, [0, 2, 0], 20, 80, 1, 0),
        (&sound, [0, 0, 2], 20, 80, 1, 0),
        (&wrong, [usize::MAX, usize::MAX, usize::MAX], 19, 0, 1, 0),
        (&sound, [0, 0, 0], 0, 80, 2, 0),
        (&sound, [0, 0, 0], 19, 80, 2, 19),
        (&sound, [0, 0, 0], 401, 80, 2, 401),
        (&wrong, [0, 0, 0], 19, 0, 2, 19),
        (&wrong, [0, 0, 0], 20, 80, 3, 0),
        (&wrong_row, [0, 0, 0], 20, 80, 3, 0),
        (&short, [0, 0, 0], 20, 0, 3, 0),
        (&sound, [0, 0, 0], 20, 79, 4, 79),
        (&sound, [0, 0, 0], 20, 81, 4, 81),
        (&sound, [4, 0, 1], 400, 0, 4, 0),
        (&sound, [4, 1, 1], 400, 400, 4, 400),
    ];
    for (set, of, len, count, number, value) in cases {
        for content in [&right, &bad] {
            let mut content = content.clone();
            content.lines.resize(count, 0);
            let said = port::lent(of, set, &content, len, [19, 16, 6])?;
            let expected = match number {
                0 if content.side[LASTNZ] == 3 => Some(Refused(13, 0)),
                0 => None,
                _ => Some(Refused(number, value)),
            };
            let what = format!("{:?}, {} bytes, {} lines: {:?}", of, len, count, said);
            holds(said.as_ref().err() == expected.as_ref(), &what, tally)?;
        }
    }
    Ok(())
}

// 18, by the buffer and by the 4,096 bytes that a field holds at most, comes before 1 to 4.
fn fields(tally: &mut Tally) -> Result<(), String> {
    let sound = Lent::of(&FLAT);
    let mut wrong = Lent::of(&FLAT);
    wrong.lookup[4095] = 64;
    let content = plain(20, 2, &[], &[]).content;
    let mut rng = Rng::new(0);
    let last = usize::MAX;
    let frame = |bytes| port::lent([0, 0, 0], &sound, &content, bytes, [19, 16, 5]);
    let cases: [(&Lent, [usize; 3], [usize; 3], port::Answer); 17] = [
        (&sound, [0, 0, 0], [23, 0, 20], frame(20)?),
        (&sound, [0, 0, 0], [30, 7, 20], frame(20)?),
        (&sound, [0, 0, 0], [500, 0, 400], frame(400)?),
        (&sound, [0, 0, 0], [22, 0, 20], Err(Refused(18, 0))),
        (&sound, [0, 0, 0], [30, 8, 20], Err(Refused(18, 8))),
        (&sound, [0, 0, 0], [30, 31, 20], Err(Refused(18, 31))),
        (&sound, [0, 0, 0], [30, last, 20], Err(Refused(18, last))),
        (&sound, [0, 0, 0], [30, 0, last], Err(Refused(18, 0))),
        (&sound, [0, 0, 0], [30, last - 22, 20], Err(Refused(18, last - 22))),
        (&sound, [0, 0, 0], [5000, 1, 4097], Err(Refused(18, 1))),
        (&sound, [0, 0, 0], [5000, 1, 4096], Err(Refused(2, 4096))),
        (&sound, [0, 0, 0], [2, 0, 0], Err(Refused(18, 0))),
        (&sound, [0, 0, 0], [3, 0, 0], Err(Refused(2, 0))),
        (&wrong, [5, 0, 0], [21, 0, 19], Err(Refused(18, 0))),
        (&wrong, [5, 0, 0], [22, 0, 19], Err(Refused(1, 0))),
        (&wrong, [0, 0, 0], [22, 0, 19], Err(Refused(2, 19))),
        (&wrong, [0, 0, 0], [23, 0, 20], Err(Refused(3, 0))),
    ];
    for (set, of, [room, offset, bytes], expected) in cases {
        let said = field::holds(of, set, &content, Place { room, offset, bytes }, &expected, &mut rng);
        holds(said.is_ok(), &said.err().unwrap_or_default(), tally)?;
    }
    Ok(())
}
