// One frame's trips, and all of a run.

use super::back;
use super::tally::{Outcome, Tally};
use super::ways::{bit_at, put_bit, Way};
use super::whose::{lastnz_bits, Parts, Whose};
use crate::frames::answers::{self, Answer, Read};
use crate::frames::port as reader;
use crate::frames::sets::Lent;
use crate::records::Rng;
use crate::writes::content::{Case, LASTNZ};
use crate::writes::make::Maker;
use crate::writes::rust::{self, Need};
use crate::writes::{again, port};

// every so many frames one is judged further: written again as it reads damaged, and written in the crate reading
const TURN: usize = 4;

// A record that is accepted, in a reading.
struct Trip<'a> {
    case: &'a Case,
    set: &'a Lent,
    reading: usize,
    parts: Parts,
}

impl Trip<'_> {
    fn written(&self) -> Result<Vec<u8>, String> {
        self.written_of(self.case)
    }

    fn written_of(&self, case: &Case) -> Result<Vec<u8>, String> {
        let of = [case.fs_ind, case.duration, self.reading];
        let answer = port::lent(of, self.set, &case.content, case.len, [19, 16, 5])?;
        answer.map_err(|refused| format!("it may not be refused, and reading {} says {:?}", self.reading, refused))
    }

    // Into so many lines.
    fn read(&self, frame: &[u8], room: usize) -> Result<Answer, String> {
        reader::read_once(&self.lent(frame, room), self.set, self.reading)
    }

    fn lent(&self, frame: &[u8], room: usize) -> answers::Case {
        let (fs_ind, duration) = (self.case.fs_ind, self.case.duration);
        answers::Case { fs_ind, duration, frame: frame.to_vec(), room, real: false }
    }

    fn returned(&self, count: usize) -> Read {
        back::returned(self.case, &self.parts, self.reading, count)
    }
}

// What a record needs; where its frame has no room, it gets a longer one, if there is one.
fn fitted(case: &mut Case) -> Result<Option<Need>, String> {
    let need_of = |case: &Case| rust::need(case).ok_or("the Rust says nothing: it panics");
    let mut need = need_of(case)?;
    if need.bits() > case.bits() {
        case.len = need.bits().div_ceil(8).min(400);
        need = need_of(case)?;
    }
    Ok((need.bits() <= case.bits()).then_some(need))
}

pub struct Run {
    rng: Rng,
    pub tally: Tally,
    // whether the frame under way is a real one
    pub is_real: bool,
}

impl Run {
    // The damage is by another row of numbers than the records.
    pub fn new(seed: u64) -> Self {
        Run { rng: Rng::new(!seed), tally: Tally::new(), is_real: true }
    }

    // A record that is accepted: written, read back, and damaged in four ways.
    pub fn trip(&mut self, case: &mut Case, maker: &Maker) -> Result<(), String> {
        let Some(need) = fitted(case)? else { return Ok(()) };
        self.tally.count_frame(case, maker.kind(), self.is_real);
        let trip = Trip { case, set: maker.set(), reading: 1, parts: Parts::of(case, &need, need.reserved()) };
        if trip.parts.early != need.tail {
            return Err(format!(
                "{} tail bits before the late ones, and the Rust says {}",
                trip.parts.early, need.tail
            ));
        }
        let frame = trip.written()?;
        if trip.parts.of_any(&[Whose::Spare, Whose::Unused]).any(|place| bit_at(&frame, place) == 1) {
            return Err("a bit that is nobody's is 1".to_string());
        }
        let before = self.read_back(&trip, &frame)?;
        let unused = [Way::Spare, Way::Unused][self.rng.below(2)];
        for way in [Way::Anything, Way::Signs, unused, Way::Lows] {
            self.damage(&trip, &frame, &before, way)?;
        }
        if !self.is_turn() {
            return Ok(());
        }
        let held_back = need.reserved() + 8 * need.is_empty() as usize;
        self.crate_reading(Trip { reading: 0, parts: Parts::of(case, &need, held_back), ..trip })
    }

    fn read_back(&mut self, trip: &Trip, frame: &[u8]) -> Result<Read, String> {
        let ne = trip.case.ne();
        let count = ne + [0, 0, self.rng.below(80), 480 - ne][self.rng.below(4)];
        let expected = trip.returned(count);
        let said = trip.read(frame, count)?;
        if said != Answer::Read(expected.clone()) {
            return Err(format!("it has to come back as {:?}, and is {:?}", expected, said));
        }
        self.tally.count_back(trip.case, trip.parts.room, expected.zero);
        Ok(expected)
    }

    fn damage(&mut self, trip: &Trip, frame: &[u8], before: &Read, way: Way) -> Result<(), String> {
        let (case, parts) = (trip.case, &trip.parts);
        let outcome = match way.damaged(&mut self.rng, frame, parts) {
            None => Outcome::Untouched,
            Some(other) => {
                let said = trip.read(&other, before.lines.len())?;
                let outcome = back::outcome(way, case, parts, before, &other, &said);
                let outcome = outcome.ok_or_else(|| format!("damaged in {} it may not be {:?}", way.name(), said))?;
                match (outcome, &said) {
                    (Outcome::LowMissing(pair) | Outcome::SignMissing(pair), _) => self.up_to(trip, &other, pair)?,
                    (_, Answer::Read(read)) if way == Way::Anything && self.is_turn() => {
                        self.read_again(trip, &other, read)?
                    }
                    _ => {}
                }
                outcome
            }
        };
        self.tally.count_damage((self.is_real, way, case.content.least_bits(), outcome));
        Ok(())
    }

    // Whether the frame under way is judged further.
    fn is_turn(&self) -> bool {
        self.tally.frames % TURN == 0
    }

    // What was read of a frame that has only escapes which its lines need, and damage makes no others: written at its length, it reads
    // the same.
    fn read_again(&mut self, trip: &Trip, other: &[u8], read: &Read) -> Result<(), String> {
        let record = again::record(&trip.lent(other, read.lines.len()), read).ok_or("a line has over 16 bits")?;
        let said = trip.read(&trip.written_of(&record)?, read.lines.len())?;
        if said != Answer::Read(read.clone()) {
            return Err(format!("damaged it reads {:?}, and written again {:?}", read, said));
        }
        self.tally.add("damaged, accepted and written again: reads the same");
        Ok(())
    }

    // Where a bit of a pair lacks room, the pairs before it are read as written: the same frame, with a lastnz that ends there.
    fn up_to(&mut self, trip: &Trip, other: &[u8], pair: usize) -> Result<(), String> {
        if pair == 0 {
            self.tally.add("9 in the first pair");
            return Ok(());
        }
        let (case, c) = (trip.case, &trip.case.content);
        let mut shorter = other.to_vec();
        let from = [0, 1, 2, 2, 3][case.fs_ind];
        (0..lastnz_bits(case.ne())).for_each(|k| put_bit(&mut shorter, from + k, ((pair - 1) >> k & 1) as u8));
        let what = match trip.read(&shorter, case.ne())? {
            Answer::Read(read) => {
                let mut side = c.side;
                side[LASTNZ] = 2 * pair as u32;
                let same = (read.side, read.orders, read.indices) == (side, c.orders, c.indices);
                (same && back::symbols_stay(c, pair, &read.lines))
                    .then_some("9 in a pair: the pairs before it are read alone, as written")
            }
            Answer::Refused(e) => (e.number == 12).then_some("9 in a pair: the pairs before it, alone, are refused 12"),
        };
        self.tally.add(what.ok_or_else(|| format!("the first {} pairs are not as written in {:02x?}", pair, other))?);
        Ok(())
    }

    // In the crate reading it need not come back.
    fn crate_reading(&mut self, trip: Trip) -> Result<(), String> {
        let (c, ne) = (&trip.case.content, trip.case.ne());
        let expected = trip.returned(ne);
        let said = trip.read(&trip.written()?, ne)?;
        let is_same = said == Answer::Read(expected.clone());
        self.tally.add(match said {
            _ if is_same && c.least_bits() => "in the crate reading, in least-bit mode: comes back the same",
            _ if is_same => "in the crate reading: comes back the same",
            _ if c.least_bits() => "in the crate reading, in least-bit mode: comes back otherwise",
            Answer::Read(read) if read.lines == expected.lines => "in the crate reading: comes back with a longer list",
            _ => "in the crate reading: comes back otherwise",
        });
        Ok(())
    }
}
