// Document 01's text of a recording, with the Rust's answers.

use super::tables::{self, Contents};
use super::walk::{Field, Walk};
use crate::frames::answers::{Answer, Case, Read, Refused, STEPS};
use crate::frames::rust;
use crate::lc3::tables::{lend, Set};
use std::fmt::Write;

// What the fields before a frame have brought.
struct Held {
    configuration: [u8; 3],
    tables: Contents,
    // once all tables are there: the set, if it passes
    set: Option<Option<Set>>,
    frames: usize,
}

// The text, and whether it ends with `end`. An error: the Rust panics, and on what.
pub fn of(input: &[u8]) -> Result<(String, bool), String> {
    let mut text = String::new();
    let mut held = Held { configuration: [0; 3], tables: Default::default(), set: None, frames: 0 };
    let mut walk = Walk::new(input);
    while let Some(field) = walk.next() {
        match field {
            Err(offset) => {
                writeln!(text, "stop 18 {}", offset).expect("a string takes all");
                return Ok((text, false));
            }
            Ok(Field::Configuration(configuration)) => held.configuration = configuration,
            Ok(Field::Table(place, content)) => held.tables[place] = content.to_vec(),
            Ok(Field::Frame(frame)) => text += &held.frame(frame)?,
        }
    }
    writeln!(text, "end {}", held.frames).expect("a string takes all");
    Ok((text, true))
}

impl Held {
    fn frame(&mut self, frame: &[u8]) -> Result<String, String> {
        self.frames += 1;
        let reading = self.configuration[2];
        Ok(match self.answer(frame)? {
            Answer::Refused(refused) => format!("frame {} refused {}\n", self.frames, of_refused(&refused)),
            Answer::Read(read) => {
                format!(
                    "frame {} bytes {} reading {}\n{}",
                    self.frames,
                    frame.len(),
                    reading,
                    of_read(&read, frame.len())
                )
            }
        })
    }

    // The Rust has no check of 1, 2 and 3, so these are judged here.
    fn answer(&mut self, frame: &[u8]) -> Result<Answer, String> {
        let [fs_ind, duration, reading] = self.configuration.map(usize::from);
        let refused = |number, values: &[usize]| Ok(Answer::Refused(Refused::new(number, values, &[])));
        if fs_ind > 4 || duration > 1 || reading > 1 {
            return refused(1, &[]);
        }
        if !(20..=400).contains(&frame.len()) {
            return refused(2, &[frame.len()]);
        }
        if self.set.is_none() {
            let set = tables::set_of(&self.tables);
            set.iter().for_each(lend);
            self.set = Some(set);
        }
        if let Some(None) = self.set {
            return refused(3, &[]);
        }
        let mut case = Case { fs_ind, duration, frame: frame.to_vec(), room: 0, real: false };
        case.room = case.ne();
        rust::returned(&case).map_err(|(head, tail)| {
            format!("the Rust panics in frame {} at head {}, tail {}: {:?}", self.frames, head, tail, case)
        })
    }
}

// Number and values, then the step and its numbers where there is one.
fn of_refused(refused: &Refused) -> String {
    let values = match refused.number {
        6 | 9 | 11 => 2,
        2 | 5 | 7 | 8 | 10 => 1,
        _ => 0,
    };
    let [step, numbers @ ..] = refused.step;
    let mut text = refused.number.to_string();
    refused.values[..values].iter().for_each(|n| text += &format!(" {}", n));
    if step != 0 {
        text += &format!(" {}", STEPS[step]);
        numbers[..[0, 0, 0, 1, 2, 2, 2][step]].iter().for_each(|n| text += &format!(" {}", n));
    }
    text
}

// The lines behind the first.
pub fn of_read(read: &Read, bytes: usize) -> String {
    let [bandwidth, lastnz, lsb, gain, _, _, pitch, low, high, msb, submode, sns_gain, a, idx_a, b, idx_b, active, index, noise] =
        read.side;
    let mut tns = String::new();
    for (order, indices) in read.orders.iter().zip(read.indices.chunks(8)) {
        tns += &format!(" {}{}", order, listed(&indices[..*order]));
    }
    let nonzero: Vec<String> =
        read.lines.iter().enumerate().filter(|(_, v)| **v != 0).map(|(k, v)| format!("{}:{}", k, v)).collect();
    let lines = [
        format!("bandwidth {} lastnz {} lsb {} gain {} noise {}", bandwidth, lastnz, lsb, gain, noise),
        format!("pitch {} active {} index {}", pitch, active, index),
        format!(
            "sns {} {} a {} {} b {} {} gain {} shape {}",
            low,
            high,
            a,
            idx_a,
            b,
            idx_b,
            sns_gain,
            2 * msb + submode
        ),
        format!("tns{}", tns),
        format!("lines {}{}", nonzero.len(), listed(&nonzero)),
        format!("residual {}{}", read.residual.len(), listed(&read.residual)),
        format!("seed {} zero {}", read.seed, read.zero as u8),
        format!("used {} spare {}", read.used(), 8 * bytes - read.used()),
    ];
    lines.map(|line| line + "\n").concat()
}

fn listed<T: ToString>(items: &[T]) -> String {
    items.iter().map(|item| format!(" {}", item.to_string())).collect()
}
