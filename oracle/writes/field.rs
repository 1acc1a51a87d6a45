// Frames written as a field of a larger buffer: what stands there behind the call, by document 01's words and the frame written alone.

use super::content::{Case, Content, Refused};
use super::port::{call_field, Answer, NUMBER};
use super::tally::Tally;
use crate::frames::sets::Lent;
use crate::records::Rng;

// the tag of a frame, and the bytes before it: "tag byte, two-byte big-endian length"
const FRAME: u8 = 0x02;
const HEADER: usize = 3;

// A field's place: the buffer's length, where in it the field begins, and how many bytes its frame has.
#[derive(Clone, Copy, Debug)]
pub struct Place {
    pub room: usize,
    pub offset: usize,
    pub bytes: usize,
}

fn field(frame: &[u8]) -> Vec<u8> {
    let mut field = vec![FRAME, (frame.len() / 256) as u8, (frame.len() % 256) as u8];
    field.extend(frame);
    field
}

// The call's number, what it lays over the numbers, of which there may be few, and every byte of the buffer.
pub fn holds(
    of: [usize; 3],
    set: &Lent,
    content: &Content,
    at: Place,
    expected: &Answer,
    rng: &mut Rng,
) -> Result<(), String> {
    let mut buffer = rng.bytes(at.room);
    let mut behind = buffer.clone();
    let (number, told) = match expected {
        Ok(frame) => {
            let next = at.offset + HEADER + frame.len();
            behind[at.offset..next].copy_from_slice(&field(frame));
            (0, vec![next])
        }
        Err(Refused(number, value)) => (*number, vec![*value, 0, 0, 0, 0]),
    };
    let mut numbers = vec![NUMBER; rng.below(8)];
    let laid: Vec<usize> = told.into_iter().chain(std::iter::repeat(NUMBER)).take(numbers.len()).collect();
    let said = call_field(of, set, content, [at.offset, at.bytes], &mut buffer, &mut numbers);
    if said != number || numbers != laid {
        return Err(format!("as a field, {:?}: {} and {:?} for {} and {:?}", at, said, numbers, number, laid));
    }
    match buffer == behind {
        true => Ok(()),
        false => Err(format!("as a field, {:?}, answered {}: the buffer is {:?} for {:?}", at, said, buffer, behind)),
    }
}

// A record at a random offset: in every third buffer there is no room for it, and 18 comes before what the frame is refused for.
pub fn compare(
    case: &Case,
    set: &Lent,
    reading: usize,
    alone: &Answer,
    rng: &mut Rng,
    tally: &mut Tally,
) -> Result<(), String> {
    let offset = rng.below(40);
    let end = offset + HEADER + case.len;
    let room = [end, end + rng.below(40), [end - 1, rng.below(end)][rng.below(2)]][rng.below(3)];
    let expected = match alone {
        _ if room < end => Err(Refused(18, offset)),
        _ => alone.clone(),
    };
    tally.add(&match (&expected, alone) {
        (Err(Refused(18, _)), Err(_)) => "as a field refused 18, before the frame's own refusal".to_string(),
        (Err(Refused(number, _)), _) => format!("as a field refused {}", number),
        (Ok(_), _) if room == end => "written as a field, and the buffer ends with it".to_string(),
        (Ok(_), _) => "written as a field".to_string(),
    });
    let of = [case.fs_ind, case.duration, reading];
    holds(of, set, &case.content, Place { room, offset, bytes: case.len }, &expected, rng)
}
