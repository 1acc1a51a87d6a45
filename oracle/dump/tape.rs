// A recording that is being written, and how its text has to end.

use super::tables::Contents;
use super::walk::MOST;
use crate::frames::answers::Case;

pub struct Tape {
    pub bytes: Vec<u8>,
    configuration: Option<[u8; 3]>,
    frames: usize,
    // the offset of the first malformed field
    malformed: Option<usize>,
}

impl Tape {
    pub fn new() -> Self {
        Tape { bytes: Vec::new(), configuration: None, frames: 0, malformed: None }
    }

    pub fn room(&self) -> usize {
        MOST.saturating_sub(self.bytes.len())
    }

    pub fn field(&mut self, tag: u8, content: &[u8]) {
        self.bytes.push(tag);
        self.bytes.extend((content.len() as u16).to_be_bytes());
        self.bytes.extend(content);
    }

    // A field as it is, or a part of one.
    pub fn raw(&mut self, bytes: &[u8]) {
        self.frames += (bytes[0] == 0x02) as usize;
        self.bytes.extend(bytes);
    }

    // What comes next is malformed; nothing behind it counts.
    pub fn break_here(&mut self) {
        self.malformed.get_or_insert(self.bytes.len());
    }

    pub fn break_with(&mut self, tag: u8, content: &[u8]) {
        self.break_here();
        self.field(tag, content);
    }

    pub fn table(&mut self, place: usize, contents: &Contents) {
        self.field(0x10 + place as u8, &contents[place]);
    }

    pub fn configure(&mut self, configuration: [u8; 3]) {
        self.field(0x01, &configuration);
        self.configuration = Some(configuration);
    }

    // By the configuration in force.
    pub fn frame(&mut self, frame: &[u8]) {
        self.frames += 1;
        self.field(0x02, frame);
    }

    // By its own configuration, which goes before it where another is in force.
    pub fn case(&mut self, case: &Case) {
        let configuration = [case.fs_ind as u8, case.duration as u8, 0];
        if self.configuration != Some(configuration) {
            self.configure(configuration);
        }
        self.frame(&case.frame);
    }

    // The text's last line.
    pub fn end(&self) -> String {
        match self.malformed {
            Some(offset) => format!("stop 18 {}", offset),
            None => format!("end {}", self.frames),
        }
    }
}
