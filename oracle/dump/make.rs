// Recordings made from a seed.

use super::limit;
use super::malformed;
use super::tables::{contents_of, set_of, Contents};
use super::tape::Tape;
use super::walk::LONGEST;
use crate::frames::answers::Case;
use crate::frames::make::{costly, damaged, made, made_of};
use crate::frames::recorded::Recordings;
use crate::frames::sets::random;
use crate::lc3::tables::FLAT;
use crate::records::Rng;

const COUNT: usize = 300;

#[derive(Clone, Copy, PartialEq)]
pub enum Set {
    Flat,
    Standard,
    Random,
}

pub struct Maker {
    pub rng: Rng,
    recordings: Option<Recordings>,
    // what the tables are, and whether frames are real ones
    pub set: Set,
}

// A frame's `fs_ind` and duration, where all of a recording have the same.
type Of = Option<(usize, usize)>;

// Each with its name.
pub fn all(seed: u64, recordings: Option<Recordings>) -> Vec<(String, Tape)> {
    let mut maker = Maker { rng: Rng::new(seed), recordings, set: Set::Flat };
    let mut tapes = vec![("empty".to_string(), Tape::new()), ("by-hand".to_string(), by_hand())];
    tapes.extend(limit::all(&mut maker));
    tapes.extend(malformed::all(&mut maker));
    tapes.extend((0..FAILURES).map(|how| (format!("failing-set-{}", how), maker.failing(how))));
    tapes.extend((0..14).map(|_| ("costly".to_string(), maker.costly())));
    for (fs_ind, duration) in (0..10).map(|k| (k / 2, k % 2)) {
        for set in [Set::Flat, Set::Standard, Set::Random] {
            tapes.push((
                format!("configuration-{}-{}", fs_ind, duration),
                maker.recording(set, Some((fs_ind, duration))),
            ));
        }
    }
    while tapes.len() < COUNT {
        let set = [Set::Flat, Set::Standard, Set::Random, Set::Random][maker.rng.below(4)];
        tapes.push(("mixed".to_string(), maker.recording(set, None)));
    }
    assert_eq!(tapes.len(), COUNT, "more recordings than are made");
    tapes.into_iter().enumerate().map(|(at, (name, tape))| (format!("{:03}-{}", at, name), tape)).collect()
}

// Document 01's frame of 20 zero bytes by the flat set, and what its last byte, which has lastnz, makes of it.
fn by_hand() -> Tape {
    let mut tape = Tape::new();
    let contents = contents_of(&FLAT);
    (0..5).for_each(|table| tape.table(table, &contents));
    tape.configure([0, 0, 0]);
    for last in 0..=40 {
        let mut frame = [0; 20];
        frame[19] = last;
        tape.frame(&frame);
    }
    tape
}

// In how many ways a table set is made to fail.
const FAILURES: usize = 15;

fn fail(rng: &mut Rng, contents: &mut Contents, how: usize) {
    let (table, width) = match how {
        0..=2 => {
            let (place, value) = [(0, 64), (4_095, 64), (rng.below(4_096), 64 + rng.below(192) as u8)][how];
            contents[0][place] = value;
            return;
        }
        _ => [(1, 17), (3, 8), (4, 17)][how % 3],
    };
    let words = contents[table].len() / 2;
    // a row's largest frequency, which is over 1, and another
    let row = [0, words / width - 1, rng.below(words / width)][rng.below(3)];
    let mut word = |k: usize, change: &dyn Fn(u16) -> u16| {
        let at = 2 * (row * width + k);
        let old = u16::from_be_bytes([contents[table][at], contents[table][at + 1]]);
        contents[table][at..at + 2].copy_from_slice(&change(old).to_be_bytes());
        old
    };
    let most = (0..width).max_by_key(|k| word(*k, &|n| n)).expect("a row has a symbol");
    let other = (most + 1 + rng.below(width - 1)) % width;
    match how / 3 {
        1 => word(other, &|n| n + 1),
        2 => word(most, &|n| n - 1),
        3 => {
            let frequency = word(other, &|_| 0);
            word(most, &|n| n + frequency)
        }
        // the total is 1,024 in sixteen bits alone
        _ => {
            word(other, &|n| n + 0x8000);
            word(most, &|n| n + 0x8000)
        }
    };
}

impl Maker {
    // The contents of a set of the kind in force; spectral bits may be any numbers.
    pub fn contents(&mut self) -> Contents {
        match (self.set, &self.recordings) {
            (Set::Flat, _) => contents_of(&FLAT),
            (Set::Standard, Some(recordings)) => contents_of(&recordings.set),
            _ => {
                let mut set = random(&mut self.rng);
                set.bits.iter_mut().flatten().for_each(|n| *n = self.rng.next() as u16);
                contents_of(&set)
            }
        }
    }

    // The tables' places in any order.
    pub fn shuffled(&mut self) -> Vec<usize> {
        let mut left: Vec<usize> = (0..5).collect();
        (0..5).map(|_| left.remove(self.rng.below(left.len()))).collect()
    }

    pub fn configuration(&mut self) -> [u8; 3] {
        [self.rng.below(5) as u8, self.rng.below(2) as u8, 0]
    }

    // One that is refused, by one number of it or more.
    fn configuration_outside(&mut self) -> [u8; 3] {
        let rng = &mut self.rng;
        let limits = [5, 2, 2];
        let wrong = 1 + rng.below(7);
        [0, 1, 2].map(|k| match wrong >> k & 1 {
            0 => rng.below(limits[k]) as u8,
            _ => [limits[k] as u8, 255, (limits[k] + rng.below(256 - limits[k])) as u8][rng.below(3)],
        })
    }

    fn length_outside(&mut self) -> usize {
        let rng = &mut self.rng;
        [0, 19, 401, LONGEST, rng.below(20), 401 + rng.below(3_696)][rng.below(6)]
    }

    fn real(&self, of: Of) -> Vec<&Case> {
        let frames = self.recordings.iter().flat_map(|recordings| &recordings.frames);
        frames.filter(|case| of.unwrap_or((case.fs_ind, case.duration)) == (case.fs_ind, case.duration)).collect()
    }

    // A real frame, one damaged, random bytes, or random bytes behind a side information.
    pub fn case(&mut self, of: Of) -> Case {
        let (kind, at) = (self.rng.below(8), self.rng.below(1 << 30));
        let real = self.real(of);
        let chosen = if real.is_empty() { None } else { Some(real[at % real.len()].clone()) };
        match (kind, chosen, self.set) {
            (0, Some(case), Set::Standard) => case,
            (0..=4, Some(case), Set::Standard) | (0, Some(case), _) => damaged(&mut self.rng, &[case]),
            (5, ..) => {
                let (fs_ind, duration) = of.unwrap_or((self.rng.below(5), self.rng.below(2)));
                let length = 20 + self.rng.below(381);
                Case { fs_ind, duration, frame: self.rng.bytes(length), room: 0, real: false }
            }
            _ => match of {
                Some(of) => made_of(&mut self.rng, of),
                None => made(&mut self.rng),
            },
        }
    }

    // So many frames, as far as there is room; some have a configuration or a length that is refused.
    pub fn frames(&mut self, tape: &mut Tape, of: Of, count: usize) {
        self.frames_of(tape, of, count, 40)
    }

    fn frames_of(&mut self, tape: &mut Tape, of: Of, count: usize, one_in: usize) {
        for _ in 0..count {
            let mut case = self.case(of);
            if self.rng.below(one_in) == 0 {
                case.frame = vec![self.rng.next() as u8; self.length_outside()];
            }
            if tape.room() < 6 + 3 + case.frame.len() {
                return;
            }
            if self.rng.below(one_in) == 0 {
                tape.configure(self.configuration_outside());
                tape.frame(&case.frame);
            } else {
                tape.case(&case);
            }
        }
    }

    // Tables in any order, before or behind a configuration that may be refused.
    pub fn begun(&mut self, contents: &Contents) -> Tape {
        let mut tape = Tape::new();
        let first = self.rng.below(4);
        if first == 0 {
            tape.configure(self.configuration());
        }
        self.shuffled().into_iter().for_each(|table| tape.table(table, contents));
        if first == 1 {
            tape.configure(self.configuration_outside());
        }
        tape
    }

    fn recording(&mut self, set: Set, of: Of) -> Tape {
        self.set = set;
        let contents = self.contents();
        let mut tape = self.begun(&contents);
        let count = self.rng.below(100);
        self.frames(&mut tape, of, count);
        tape
    }

    fn failing(&mut self, how: usize) -> Tape {
        self.set = [Set::Flat, Set::Standard, Set::Random][self.rng.below(3)];
        let mut contents = self.contents();
        fail(&mut self.rng, &mut contents, how);
        assert!(set_of(&contents).is_none(), "a set that has to fail passes");
        let mut tape = self.begun(&contents);
        let count = self.rng.below(20);
        self.frames_of(&mut tape, None, count, 4);
        // at least one is refused for its tables alone
        tape.case(&made(&mut self.rng));
        tape
    }

    // A table set that is made for its first frame, so that the head ends within the TNS data.
    fn costly(&mut self) -> Tape {
        self.set = Set::Flat;
        let (case, set) = costly(&mut self.rng);
        let mut tape = self.begun(&contents_of(&set));
        tape.case(&case);
        self.frames(&mut tape, None, 5);
        tape
    }
}
