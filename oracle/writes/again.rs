// Frames read in the standard reading and written again: real ones, and those that this code wrote.

use super::content::{Case, Content};
use super::make::Real;
use super::port;
use super::tally::Tally;
use crate::frames::answers::{self, Answer, Read};
use crate::frames::port as reader;
use crate::frames::recorded::Recordings;
use crate::frames::sets::Lent;

// what becomes of a frame that is read and written again: the one exception is a line that is read as 0, since its sign has no room
const SAME: &str = "frames, read and written again the same";
const LOST: &str = "frames, read and written again with a last late bit 0 for a 1 whose sign has no room";

// Every real frame's record, which written at the frame's length is the frame again.
pub fn all(recordings: Recordings, tally: &mut Tally) -> Result<Real, String> {
    let set = Lent::of(&recordings.set);
    [SAME, LOST].iter().for_each(|what| tally.note(&format!("real {}", what)));
    let cases: Result<Vec<Case>, String> =
        recordings.frames.iter().map(|frame| again(frame, &set, "real", tally)).collect();
    Ok(Real { set: recordings.set, cases: cases? })
}

fn again(frame: &answers::Case, set: &Lent, whose: &str, tally: &mut Tally) -> Result<Case, String> {
    let Answer::Read(read) = reader::read(frame, set, 1)? else {
        return Err(format!("in the standard reading a frame is refused: {:?}", frame));
    };
    let case = record(frame, &read).ok_or(format!("a line has over 16 bits: {:?}", frame))?;
    let bytes = port::write(&case, set, 1)?;
    let what = match &bytes {
        Ok(bytes) if *bytes == frame.frame => SAME,
        Ok(bytes) if case.content.least_bits() && lost(&frame.frame, bytes, read.tail) => LOST,
        _ => return Err(format!("{:?} read and written again is {:?}", frame, bytes)),
    };
    tally.add(&format!("{} {}", whose, what));
    Ok(case)
}

// Whether two frames part in the last tail bit that was read alone, which was 1.
fn lost(frame: &[u8], again: &[u8], tail: usize) -> bool {
    let mut without = frame.to_vec();
    let at = frame.len() - 1 - (tail - 1) / 8;
    without[at] &= !(1 << ((tail - 1) % 8));
    without != frame && without == again
}

// What a frame is written of, by what was read of it.
pub fn record(frame: &answers::Case, read: &Read) -> Option<Case> {
    let lines: Option<Vec<i16>> = read.lines[..frame.ne()].iter().map(|line| i16::try_from(*line).ok()).collect();
    let content = Content {
        side: read.side,
        orders: read.orders,
        indices: read.indices,
        lines: lines?,
        residual: read.residual.clone(),
    };
    let (fs_ind, duration, len) = (frame.fs_ind, frame.duration, frame.frame.len());
    Some(Case { fs_ind, duration, len, content, spoilt: None })
}

// What was written in the standard reading comes back, but for what is dropped for room; written again it is the same frame.
pub fn reads_back(case: &Case, set: &Lent, frame: &[u8], room: usize, tally: &mut Tally) -> Result<(), String> {
    let (fs_ind, duration) = (case.fs_ind, case.duration);
    let of = answers::Case { fs_ind, duration, frame: frame.to_vec(), room: case.ne(), real: false };
    let back = again(&of, set, "own", tally)?;
    let expected = case.content.returned(room);
    tally.add("read back in the standard reading");
    if expected.lines != case.content.lines {
        tally.add("read back with lowest bits cleared");
    }
    match back.content == expected {
        true => Ok(()),
        false => Err(format!("written in the standard reading, and read back {:?}", back)),
    }
}
