// How often each outcome occurred, and which ones have to.

use super::answers::{Answer, Case, STEPS};
use std::collections::BTreeMap;

pub struct Tally {
    counts: BTreeMap<String, usize>,
    real: bool,
}

// What can occur in a whole frame. Side information and start always have room there, and so has an order.
const EXPECTED: &[&str] = &[
    "accepted",
    "accepted in least-bit mode",
    "refused 5",
    "refused 6",
    "refused 7",
    "refused 8",
    "refused 9 in bit",
    "refused 10 in coef",
    "refused 10 in symbol",
    "refused 11 in order",
    "refused 11 in coef",
    "refused 11 in symbol",
    "refused 12",
    "refused at level 13 in symbol",
    "refused at level 14 in bit",
    "a residual bit for each nonzero line",
    "residual bits cut by room",
    "fourteen escapes",
    "a line over 32,767",
    "zero flag",
    "zero flag in reading 0 alone",
    "refused 19 in reading 1: reading 0 accepts",
    "refused 19 in reading 1: reading 0 accepts, in least-bit mode",
    "refused 19 in reading 1: reading 0 lacks its tail bits",
    "refused 19 in reading 1: reading 0 lacks its signs",
    "refused 19 in reading 1: reading 0 refuses 12",
    "refused 19 in reading 1: reading 0 refuses behind it",
    "least-bit mode: readings differ",
    "least-bit mode: readings agree",
    "head and tail have crossed",
    "order 8 of filter 0",
    "order 8 of filter 1",
    "parts of the flat set filled at their size",
    "parts of the flat set filled, shorter",
    "parts of the flat set filled, longer",
];

impl Tally {
    pub fn new(real: bool) -> Self {
        Tally { counts: BTreeMap::new(), real }
    }

    pub fn add(&mut self, what: &str) {
        match self.counts.get_mut(what) {
            Some(count) => *count += 1,
            None => {
                self.counts.insert(what.to_string(), 1);
            }
        }
    }

    pub fn count(&mut self, case: &Case, answer: &Answer) {
        self.add("cases");
        if case.real {
            self.add("real frames");
        }
        match answer {
            Answer::Refused(e) => {
                let [step, _, level] = e.step;
                match step {
                    0 => self.add(&format!("refused {}", e.number)),
                    _ => self.add(&format!("refused {} in {}", e.number, STEPS[step])),
                }
                if step == 5 && level == 13 {
                    self.add("refused at level 13 in symbol");
                }
                if step == 6 && level == 14 {
                    self.add("refused at level 14 in bit");
                }
            }
            Answer::Read(read) => {
                self.add(if read.least_bits() { "accepted in least-bit mode" } else { "accepted" });
                let nonzero = read.lines.iter().filter(|x| **x != 0).count();
                if !read.least_bits() && nonzero > 0 {
                    self.add(match read.residual.len() == nonzero {
                        true => "a residual bit for each nonzero line",
                        false => "residual bits cut by room",
                    });
                }
                let most = read.lines.iter().map(|x| x.unsigned_abs()).max().unwrap_or(0);
                if most > 32_767 {
                    self.add("a line over 32,767");
                }
                // the second line of a pair is at least 4 at level 14, and stays below at every other
                if most >= 4 << 14 {
                    self.add("fourteen escapes");
                }
                if read.zero {
                    self.add("zero flag");
                }
                if 8 * read.head + read.tail > 8 * case.frame.len() {
                    self.add("head and tail have crossed");
                }
                for (f, order) in read.orders.iter().enumerate() {
                    if *order == 8 {
                        self.add(&format!("order 8 of filter {}", f));
                    }
                }
            }
        }
    }

    pub fn count_readings(&mut self, first: &Answer, second: &Answer, damaged: Option<usize>) {
        if let Some(pair) = damaged {
            self.add("refused 19 in reading 1");
            self.add(match first {
                Answer::Read(a) if a.least_bits() => "refused 19 in reading 1: reading 0 accepts, in least-bit mode",
                Answer::Read(_) => "refused 19 in reading 1: reading 0 accepts",
                Answer::Refused(e) if e.step == [6, pair, 13] => {
                    "refused 19 in reading 1: reading 0 lacks its tail bits"
                }
                Answer::Refused(e) if e.step == [6, pair, 14] => "refused 19 in reading 1: reading 0 lacks its signs",
                Answer::Refused(e) if e.number == 12 => "refused 19 in reading 1: reading 0 refuses 12",
                Answer::Refused(_) => "refused 19 in reading 1: reading 0 refuses behind it",
            });
        }
        if let (Answer::Read(a), Answer::Read(b)) = (first, second) {
            if a.least_bits() {
                self.add(match a.lines == b.lines {
                    true => "least-bit mode: readings agree",
                    false => "least-bit mode: readings differ",
                });
            }
            if a.zero && !b.zero {
                self.add("zero flag in reading 0 alone");
            }
        }
    }

    pub fn say(&self, seed: u64) {
        println!("frames: seed {}", seed);
        for (what, count) in &self.counts {
            println!("  {:>9} {}", count, what);
        }
    }

    pub fn missing(&self) -> Vec<&str> {
        let real = if self.real { Some("real frames") } else { None };
        EXPECTED.iter().copied().chain(real).filter(|what| !self.counts.contains_key(*what)).collect()
    }
}
