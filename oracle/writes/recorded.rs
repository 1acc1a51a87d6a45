// Recordings whose frames the field writer lays one behind the other into one buffer, each with the text that its records make.

use super::content::Refused;
use super::make::{Maker, BLOCK};
use super::tally::Tally;
use super::{again, port, rust};
use crate::dump::{text, walk::MOST};
use crate::frames::answers::{self, Answer};
use crate::frames::port as reader;
use crate::frames::sets::Lent;

fn field(tag: u8, content: &[u8]) -> Vec<u8> {
    let mut field = vec![tag];
    field.extend((content.len() as u16).to_be_bytes());
    field.extend(content);
    field
}

fn tables(set: &Lent) -> Vec<u8> {
    let words = |part: &[u16]| part.iter().flat_map(|n| n.to_be_bytes()).collect();
    let rows: [Vec<u8>; 4] = [&set.frequencies, &set.bits, &set.orders, &set.coefficients].map(|part| words(part));
    let rows = rows.iter().enumerate().flat_map(|(place, part)| field(0x11 + place as u8, part));
    field(0x10, &set.lookup).into_iter().chain(rows).collect()
}

// The records of one block, in the standard reading, as far as the dump's bytes have room for them.
pub fn make(maker: &mut Maker, block: usize, tally: &mut Tally) -> Result<(Vec<u8>, String), String> {
    let (mut buffer, mut end, mut said, mut frames) = (vec![0; MOST], 0, String::new(), 0);
    let put = |buffer: &mut Vec<u8>, at: usize, bytes: &[u8]| {
        buffer[at..at + bytes.len()].copy_from_slice(bytes);
        at + bytes.len()
    };
    for at in 0..BLOCK {
        let case = maker.sound(block * BLOCK + at);
        let set = maker.set();
        if at == 0 {
            end = put(&mut buffer, 0, &tables(set));
        }
        let configuration = field(0x01, &[case.fs_ind as u8, case.duration as u8, 1]);
        if end + configuration.len() > MOST {
            break;
        }
        let begin = put(&mut buffer, end, &configuration);
        let (of, mut numbers) = ([case.fs_ind, case.duration, 1], [0]);
        match port::call_field(of, set, &case.content, [begin, case.len], &mut buffer, &mut numbers) {
            0 => end = numbers[0],
            16 => continue,
            18 if numbers == [begin] => break,
            number => return Err(format!("{:?} as a field: {:?}", case, Refused(number, numbers[0]))),
        }
        let frame = buffer[end - case.len..end].to_vec();
        let need = rust::need(&case).ok_or("the Rust panics before the residual bits")?;
        again::reads_back(&case, set, &frame, case.bits() - need.bits(), tally)?;
        let of = answers::Case { fs_ind: of[0], duration: of[1], frame, room: case.ne(), real: false };
        let Answer::Read(read) = reader::read_once(&of, set, 1)? else { return Err("it is not read".to_string()) };
        frames += 1;
        said += &format!("frame {} bytes {} reading 1\n{}", frames, case.len, text::of_read(&read, case.len));
    }
    buffer.truncate(end);
    Ok((buffer, said + &format!("end {}\n", frames)))
}
