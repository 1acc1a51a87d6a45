// The cases: real frames, real frames damaged, and frames made of a valid or invalid side information and chosen bytes.

use super::answers::Case;
use super::recorded::Recordings;
use super::sets::{fixed, random, Lent};
use crate::lc3::tables::{Set, FLAT};
use crate::records::Rng;
use crate::rows::Row;

// as many frames one behind the other share a table set
const BLOCK: usize = 128;

#[derive(Clone, Copy, PartialEq)]
enum Kind {
    Standard,
    Any,
    // frames so short, by rows so costly, that the head ends within the TNS data; each has a set of its own
    Costly,
}

pub struct Maker {
    rng: Rng,
    recordings: Option<Recordings>,
    kind: Kind,
    set: Lent,
}

impl Maker {
    pub fn new(seed: u64, recordings: Option<Recordings>) -> Self {
        Maker { rng: Rng::new(seed), recordings, kind: Kind::Any, set: Lent::of(&FLAT) }
    }

    // The set in force, for the case that was made last.
    pub fn set(&self) -> &Lent {
        &self.set
    }

    // First every real frame as it is; then blocks of frames by one set each.
    pub fn case(&mut self, at: usize) -> Case {
        let real = self.recordings.as_ref().map_or(0, |r| r.frames.len());
        if at < real {
            let recordings = self.recordings.as_ref().expect("there are real frames");
            if at == 0 {
                self.set = Lent::of(&recordings.set);
            }
            return recordings.frames[at].clone();
        }
        if (at - real) % BLOCK == 0 {
            self.block();
        }
        let mut case = match self.kind {
            Kind::Costly => {
                let (case, set) = costly(&mut self.rng);
                self.set = Lent::of(&set);
                case
            }
            Kind::Standard if self.rng.below(4) != 0 => {
                damaged(&mut self.rng, &self.recordings.as_ref().expect("there are real frames").frames)
            }
            _ => made(&mut self.rng),
        };
        let ne = case.ne();
        case.room = ne + [0, 0, self.rng.below(80), 480 - ne][self.rng.below(4)];
        case
    }

    fn block(&mut self) {
        let rng = &mut self.rng;
        let (kind, set) = match (rng.below(20), &self.recordings) {
            (0..=5, Some(recordings)) => (Kind::Standard, recordings.set.clone()),
            (6..=8, _) => (Kind::Any, FLAT),
            (9, _) => (Kind::Costly, FLAT),
            _ => (Kind::Any, random(rng)),
        };
        self.kind = kind;
        self.set = Lent::of(&set);
    }
}

// A real frame with some bits, bytes or an end changed.
pub fn damaged(rng: &mut Rng, frames: &[Case]) -> Case {
    let mut case = frames[rng.below(frames.len())].clone();
    case.real = false;
    let len = case.frame.len();
    // in most the side information stays, so that the damage is met behind it
    let kept = if rng.below(4) == 0 { 0 } else { 10 };
    match rng.below(4) {
        0 => (0..=rng.below(8)).for_each(|_| case.frame[rng.below(len - kept)] ^= 1 << rng.below(8)),
        1 => (0..=rng.below(4)).for_each(|_| case.frame[rng.below(len - kept)] = rng.next() as u8),
        2 => {
            let from = rng.below(len - kept);
            case.frame[from..len - kept].iter_mut().for_each(|byte| *byte = rng.next() as u8);
        }
        _ => {
            let cut = rng.below(len - 20 + 1).min(rng.below(40));
            case.frame.drain(len - kept.min(len - cut) - cut..len - kept.min(len - cut));
        }
    }
    case
}

pub fn made(rng: &mut Rng) -> Case {
    let of = (rng.below(5), rng.below(2));
    made_of(rng, of)
}

// By its `fs_ind` and duration.
pub fn made_of(rng: &mut Rng, of: (usize, usize)) -> Case {
    let len = match rng.below(8) {
        0 => 20,
        1..=3 => 20 + rng.below(21),
        _ => 20 + rng.below(381),
    };
    let mut case = Case { fs_ind: of.0, duration: of.1, frame: bytes(rng, len), room: 0, real: false };
    // in every sixteenth the side information is any bits
    if rng.below(16) != 0 {
        put_side(rng, &mut case, false);
    }
    case
}

// With every index's symbol at frequency 1, two filters take more bytes than the shortest frames have.
pub fn costly(rng: &mut Rng) -> (Case, Set) {
    let len = 20 + rng.below(4);
    let mut case =
        Case { fs_ind: 3 + rng.below(2), duration: rng.below(2), frame: rng.bytes(len), room: 0, real: false };
    put_side(rng, &mut case, true);
    let set = costly_set(rng, &case.frame);
    (case, set)
}

// Random bytes behind a valid side information, for a time.
pub fn behind_side(rng: &mut Rng, len: usize) -> Case {
    let mut case = Case { fs_ind: rng.below(5), duration: rng.below(2), frame: rng.bytes(len), room: 0, real: false };
    put_side(rng, &mut case, false);
    case
}

// Random, with runs of equal bytes, and now and then a start that no symbol owns.
fn bytes(rng: &mut Rng, len: usize) -> Vec<u8> {
    let mut bytes = rng.bytes(len);
    match rng.below(12) {
        0 => bytes.fill(0),
        1 => bytes.fill(0xff),
        2..=3 => {
            let from = rng.below(len);
            bytes[from..].fill([0, 0xff][rng.below(2)]);
        }
        4 => bytes[..len / 2].fill(0),
        5 if rng.below(8) == 0 => bytes[..3].fill(0xff),
        _ => {}
    }
    bytes
}

// Writes fields from a frame's tail on, each from its lowest bit.
struct Fields<'a> {
    frame: &'a mut [u8],
    tail: usize,
}

impl Fields<'_> {
    fn put(&mut self, value: usize, width: usize) {
        for k in 0..width {
            let at = self.frame.len() - 1 - self.tail / 8;
            let bit = 1 << (self.tail % 8);
            self.frame[at] = if value >> k & 1 == 1 { self.frame[at] | bit } else { self.frame[at] & !bit };
            self.tail += 1;
        }
    }
}

// A side information that is accepted, but for one field in some; with two filters where that is asked.
fn put_side(rng: &mut Rng, case: &mut Case, two_filters: bool) {
    let (fs_ind, ne) = (case.fs_ind, case.ne());
    let wrong = if two_filters { 99 } else { rng.below(64) };
    let width = [0, 1, 2, 2, 3][fs_ind];
    let lastnz_width = (ne / 2 - 1).ilog2() as usize + 1;
    let mut to = Fields { frame: &mut case.frame, tail: 0 };
    let bandwidth = match wrong {
        0 => rng.below(1 << width),
        _ if two_filters => 3 + rng.below(fs_ind - 2),
        _ => rng.below(fs_ind + 1),
    };
    to.put(bandwidth, width);
    let pairs = match rng.below(8) {
        _ if wrong == 1 => rng.below(1 << lastnz_width),
        0 => 0,
        1 => rng.below(4),
        2..=3 => ne / 2 - 1,
        _ => rng.below(ne / 2),
    };
    to.put(pairs, lastnz_width);
    to.put((rng.below(3) == 0) as usize, 1);
    to.put([0, rng.below(256)][(rng.below(4) != 0) as usize], 8);
    for _ in 0..if bandwidth < 3 { 1 } else { 2 } {
        to.put(if two_filters { 1 } else { rng.below(2) }, 1);
    }
    let pitch = rng.below(2);
    to.put(pitch, 1);
    to.put(rng.below(32), 5);
    to.put(rng.below(32), 5);
    let msb = rng.below(2);
    to.put(msb, 1);
    to.put(rng.below(4), 1 + msb);
    to.put(rng.below(2), 1);
    let (limit, width) = [(33_460_056, 25), (16_708_096, 24)][msb];
    to.put(
        match wrong {
            2 => limit + rng.below((1 << width) - limit),
            3 => limit - 1 + rng.below(2),
            _ => rng.below(limit),
        },
        width,
    );
    if pitch == 1 {
        to.put(rng.below(2), 1);
        to.put(rng.below(512), 9);
    }
    to.put([7, rng.below(8)][(rng.below(3) != 0) as usize], 3);
}

// The coder's state over a frame, for a set that is made to fit the frame.
struct State<'a> {
    frame: &'a [u8],
    head: usize,
    low: usize,
    range: usize,
}

impl State<'_> {
    // The symbol that begins at a point of its row, with a width.
    fn take(&mut self, point: usize, width: usize) {
        let r = self.range >> 10;
        self.low = self.low.saturating_sub(r * point);
        self.range = r * width;
        while self.range < 0x10000 {
            self.low = (self.low << 8 & 0xff_ffff) + self.frame.get(self.head).copied().unwrap_or(0) as usize;
            self.range <<= 8;
            self.head += 1;
        }
    }
}

// Orders are 8 wherever low allows, and each index that the frame then has is a symbol of frequency 1.
fn costly_set(rng: &mut Rng, frame: &[u8]) -> Set {
    let mut set = FLAT;
    set.order = [[1, 1, 1, 1, 1, 1, 1, 1017]; 2];
    let low = frame[..3].iter().fold(0, |n, byte| n << 8 | *byte as usize);
    let mut at = State { frame, head: 3, low, range: 0xff_ffff };
    let mut points = [[0; 2]; 8];
    for f in 0..2 {
        at.take(7, 1017);
        for of_index in &mut points {
            of_index[f] = (at.low / (at.range >> 10)).min(1023);
            at.take(of_index[f], 1);
        }
    }
    for (row, points) in set.coef.iter_mut().zip(points) {
        let mut cuts: Vec<usize> = points.iter().flat_map(|p| [*p, *p + 1]).filter(|p| (1..1024).contains(p)).collect();
        while {
            cuts.sort();
            cuts.dedup();
            cuts.len() < 16
        } {
            cuts.push(1 + rng.below(1023));
        }
        cuts.push(1024);
        let mut from = 0;
        let widths = cuts.iter().map(|to| (to - std::mem::replace(&mut from, *to)) as i16).collect();
        *row = fixed(Row::new(widths));
    }
    set
}
