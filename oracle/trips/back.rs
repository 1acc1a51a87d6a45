// What has to come back of a written frame, and of a damaged one.

use super::tally::Outcome;
use super::ways::{bit_at, Way};
use super::whose::Parts;
use crate::frames::answers::{Answer, Read, Refused};
use crate::writes::content::*;

// The step `bit` of document 01, as a reader tells it.
const BIT: usize = 6;

// A whole frame as it is read back, into so many lines.
pub fn returned(case: &Case, parts: &Parts, reading: usize, count: usize) -> Read {
    let c = &case.content;
    let back = c.returned(parts.room);
    let mut lines: Vec<i32> = back.lines.iter().map(|line| *line as i32).collect();
    lines.resize(count, 0);
    let late = if c.least_bits() { c.late_count() } else { c.nonzero() };
    Read {
        side: c.side,
        orders: c.orders,
        indices: c.indices,
        residual: back.residual,
        seed: seed(&lines),
        zero: is_silent(c, &lines) && (reading == 0 || c.side[NOISE] == 7),
        head: 3 + parts.shifts,
        tail: parts.early + late.min(parts.room),
        range: parts.range,
        lines,
    }
}

// The sum of magnitude times index wraps at 32 bits, and its low 16 are kept.
fn seed(lines: &[i32]) -> u32 {
    let term = |(k, line): (usize, &i32)| line.unsigned_abs().wrapping_mul(k as u32);
    lines.iter().enumerate().map(term).fold(0, u32::wrapping_add) & 0xffff
}

fn is_silent(c: &Content, lines: &[i32]) -> bool {
    c.lastnz() == 2 && lines[..2] == [0, 0] && c.side[GAIN] == 0
}

// Two bits of each magnitude of the first pairs are in symbols, and those are as written. Where no escape is, that is all of it.
pub fn symbols_stay(c: &Content, pairs: usize, lines: &[i32]) -> bool {
    (0..2 * pairs)
        .all(|k| lines[k].unsigned_abs() >> c.escapes(k / 2) == c.lines[k].unsigned_abs() as u32 >> c.escapes(k / 2))
        && lines[2 * pairs..].iter().all(|line| *line == 0)
}

// Side information, TNS, each pair's symbols, and the coder behind them.
pub fn is_as_written(c: &Content, before: &Read, read: &Read) -> bool {
    let coder = |read: &Read| (read.head, read.range);
    (read.side, read.orders, read.indices) == (c.side, c.orders, c.indices)
        && coder(read) == coder(before)
        && symbols_stay(c, c.lastnz() / 2, &read.lines)
}

// Magnitudes before what comes late.
fn magnitudes_stay(c: &Content, lines: &[i32]) -> bool {
    (0..c.lastnz()).all(|k| {
        let late = (c.least_bits() && c.escaped(k / 2)) as u32;
        lines[k].unsigned_abs() >> late == c.lines[k].unsigned_abs() as u32 >> late
    })
}

// What became of a frame that was damaged in a way, if it may become so.
pub fn outcome(way: Way, case: &Case, parts: &Parts, before: &Read, frame: &[u8], answer: &Answer) -> Option<Outcome> {
    let c = &case.content;
    match answer {
        Answer::Read(read) => {
            let may = match way {
                Way::Anything | Way::Lows => true,
                Way::Signs => magnitudes_stay(c, &read.lines) && (c.least_bits() || read.tail == before.tail),
                Way::Spare => *read == filled(c, parts, before, frame),
                Way::Unused => read == before,
            };
            (may && is_as_written(c, before, read)).then(|| difference(before, read))
        }
        Answer::Refused(refused) if matches!(way, Way::Anything | Way::Lows) => {
            lacks_room(c, parts, frame.len(), refused)
        }
        Answer::Refused(_) => None,
    }
}

// Outside least-bit mode the bits that the list lacked are there now.
fn filled(c: &Content, parts: &Parts, before: &Read, frame: &[u8]) -> Read {
    let mut filled = before.clone();
    for k in c.residual.len()..before.residual.len() {
        filled.residual[k] = bit_at(frame, parts.early + k);
    }
    filled
}

// 9 in the step `bit`, of a pair that is there and a level that it has, with a tail cursor that a head can have met by then; or 12.
fn lacks_room(c: &Content, parts: &Parts, len: usize, refused: &Refused) -> Option<Outcome> {
    let [step, pair, level] = refused.step;
    let [width, tail] = refused.values;
    let is_late = (8 * (len - parts.shifts)..=8 * len).contains(&tail);
    match refused.number {
        12 if *refused == Refused::new(12, &[], &[]) => Some(Outcome::Negative),
        9 if step == BIT && width == 1 && is_late && pair < c.lastnz() / 2 => {
            let escapes = c.escapes(pair) as usize;
            let outcome = if level < escapes { Outcome::LowMissing(pair) } else { Outcome::SignMissing(pair) };
            (level <= escapes).then_some(outcome)
        }
        _ => None,
    }
}

fn difference(before: &Read, read: &Read) -> Outcome {
    let magnitudes = |read: &Read| -> Vec<u32> { read.lines.iter().map(|line| line.unsigned_abs()).collect() };
    if magnitudes(read) != magnitudes(before) {
        Outcome::Magnitudes
    } else if read.lines != before.lines {
        Outcome::Signs
    } else if read.residual != before.residual {
        Outcome::List
    } else {
        Outcome::Same
    }
}
