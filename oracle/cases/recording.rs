// Cases of recordings: of each frame the side information, read, and what was read written back.

use super::side_info::{in_call, Config, Read};
use crate::records::{self, written, Records};

// The tag and the content of the field at the front, if all of it is there.
pub fn field(bytes: &[u8]) -> Option<(u8, &[u8])> {
    let len = u16::from_be_bytes([*bytes.get(1)?, *bytes.get(2)?]) as usize;
    Some((bytes[0], bytes.get(3..3 + len)?))
}

// The frames of a recording, each with the configuration in force; or the place of a field that cannot be there.
fn recording(bytes: &[u8]) -> Result<Vec<(Config, &[u8])>, usize> {
    let (mut frames, mut tables, mut of, mut at) = (Vec::new(), [false; 5], None, 0);
    while at < bytes.len() {
        let (tag, content) = field(&bytes[at..]).ok_or(at)?;
        match (tag, content, of) {
            (0x01, [fs_ind @ 0..=4, duration @ 0..=1, 0..=1], _) => {
                of = Some(Config { fs_ind: *fs_ind as usize, duration: *duration as usize })
            }
            (0x02, frame, Some(of)) if (20..=400).contains(&frame.len()) => frames.push((of, frame)),
            (0x10..=0x14, ..) if !tables[tag as usize - 0x10] => tables[tag as usize - 0x10] = true,
            _ => return Err(at),
        }
        at += 3 + content.len();
    }
    Ok(frames)
}

// What the Rust reads of a frame, and what it read written back; of a refused frame there is nothing to write.
fn put_frame(out: &mut Records, of: Config, frame: &[u8]) {
    let case = Read { of, at: (0, 0), frame: frame.to_vec() };
    case.put(out);
    let read = case.answer();
    if read.refusal().is_some() {
        return;
    }
    // in the answer the record stands behind the two cursors
    let record = &read.numbers[3..];
    let tail = case.walk().tail;
    // before the write the side information's own bits are all wrong, so that one left unwritten shows
    let mut before = frame.to_vec();
    for bit in 0..tail {
        before[frame.len() - 1 - bit / 8] ^= 1 << (bit % 8);
    }
    // this answer is the recording's, not the Rust's: what was read gives the frame's own bits again
    out.put(34, (&in_call(of, (0, 0), record), &before), &written(&[0, tail], frame));
}

// Returns how many frames there were. Every file is judged before the first record is written.
pub fn run(out: &mut Records, files: &[String]) -> usize {
    let contents: Vec<Vec<u8>> =
        files.iter().map(|file| std::fs::read(file).unwrap_or_else(|e| stop(file, &e.to_string()))).collect();
    let mut all = Vec::new();
    for (file, bytes) in files.iter().zip(&contents) {
        match recording(bytes) {
            Ok(frames) => {
                if frames.is_empty() {
                    stop(file, "this recording has no frame");
                }
                eprintln!("oracle recording {}: {} frames", file.rsplit('/').next().unwrap_or(file), frames.len());
                all.extend(frames);
            }
            Err(at) => stop(file, &format!("this is no recording: its field at byte {} cannot be there", at)),
        }
    }
    all.iter().for_each(|(of, frame)| put_frame(out, *of, frame));
    all.len()
}

fn stop(file: &str, why: &str) -> ! {
    records::stop(&format!("{}: {}", file, why))
}
