// Cases of the range decoder: its start at every place of short buffers, single steps around every limit, and chains of
// steps through one frame. The limits below only aim the cases; every answer is the Rust's.

use super::buffer_reader::{cursors, reader_at};
use super::rows::{self, Row, TOTAL};
use crate::lc3::decoder::arithmetic_codec::{door, ArithmeticCodecError};
use crate::lc3::decoder::buffer_reader::{BufferReader, BufferReaderError};
use crate::records::{accepted, hold, refused, search, Answer, OneOfEach, Records, Rng};

// the largest cursor that is compared
const FAR: usize = 65_535;
// the longest chain
const CHAIN: usize = 100;
// Of so many random cases one is a chain, one a start, and the others single steps.
const CHAINS: usize = 10;

// The ends of what a range may be, and where its unit, or the number of bytes that the smallest parts want, changes.
const RANGES: [u32; 18] = [
    0x10000, 0x10001, 0x103ff, 0x10400, 0x157ff, 0x15800, 0x1ffff, 0x20000, 0x3fbff, 0x3fc00, 0x3ffff, 0x40000,
    0x7fffff, 0x800000, 0xfffbff, 0xfffc00, 0xfffffe, 0xffffff,
];

// As a call and an answer have them.
fn numbers((head, tail): (usize, usize), (low, range): door::State) -> [usize; 4] {
    [head, tail, low as usize, range as usize]
}

fn refusal(error: ArithmeticCodecError) -> Answer {
    match error {
        ArithmeticCodecError::AcRangeFlOutOfRange(low, limit) => refused(11, &[low as usize, limit as usize]),
        ArithmeticCodecError::BufferReader(BufferReaderError::ReadByteOutOfBounds(h)) => refused(10, &[h]),
        ArithmeticCodecError::BufferReader(BufferReaderError::ReadU24OutOfBounds(h)) => refused(10, &[h]),
        ArithmeticCodecError::BufferReader(e) => panic!("the coder reads nothing at the tail: {:?}", e),
    }
}

fn put_start(out: &mut Records, at: (usize, usize), buf: &[u8]) {
    // the Rust has no panic here
    out.put_said(49, (&[at.0, at.1], buf), None, || {
        let mut reader = reader_at(at);
        match door::start(buf, &mut reader) {
            Err(error) => {
                hold(cursors(&reader) == at, "a refused start moves a cursor");
                refusal(error)
            }
            Ok(state) => accepted(&numbers(cursors(&reader), state)),
        }
    });
}

// Steps behind one another, each by a row of the list; the first that is refused is the last.
struct Steps {
    at: (usize, usize),
    state: door::State,
    rows: Vec<Row>,
    list: Vec<usize>,
    buf: Vec<u8>,
}

// What the steps of a run came to: symbols by the bytes that they took; refused 11; refused 10 by the bytes that were
// there.
#[derive(Default)]
struct Seen {
    symbols: [usize; 3],
    beyond: usize,
    short: [usize; 2],
}

impl Steps {
    // Each step is a call, from where the Rust stands behind the one before.
    fn put(&self, out: &mut Records, seen: &mut Seen) {
        out.lend(&self.buf);
        let mut reader = reader_at(self.at);
        let mut state = self.state;
        let mut goes_on = true;
        for row in self.list.iter().map(|row| &self.rows[*row]) {
            let call = numbers(cursors(&reader), state);
            let bytes: Vec<u8> = row.frequency.iter().flat_map(|f| f.to_be_bytes()).collect();
            // nor here
            out.put_said(50, (&call, &bytes), None, || {
                let answer = self.step(row, &mut reader, &mut state, seen);
                goes_on = answer.refusal().is_none();
                answer
            });
            if !goes_on {
                break;
            }
        }
    }

    fn step(&self, row: &Row, reader: &mut BufferReader, state: &mut door::State, seen: &mut Seen) -> Answer {
        let before = (*state, cursors(reader));
        let (head, tail) = before.1;
        let result = door::symbol(&self.buf, reader, state, &row.cumulative, &row.frequency);
        let bytes = cursors(reader).0 - head;
        match result {
            Err(error) => {
                match error {
                    ArithmeticCodecError::AcRangeFlOutOfRange(..) => {
                        hold((*state, cursors(reader)) == before, "a step that is refused 11 alters something");
                        seen.beyond += 1
                    }
                    ArithmeticCodecError::BufferReader(_) => {
                        hold(cursors(reader).1 == tail, "a step moves the tail");
                        seen.short[bytes] += 1
                    }
                }
                refusal(error)
            }
            Ok(symbol) => {
                seen.symbols[bytes] += 1;
                accepted(&[&numbers(cursors(reader), *state)[..], &[symbol as usize]].concat())
            }
        }
    }

    // Of a single step: whether low is at the limit or beyond it, or begins a part, or ends it, or lies within; whether the
    // part is the row's first or last; the bytes that the step wants, and those that are there, as far as it comes to them.
    fn class(&self) -> (usize, bool, bool, usize, Option<usize>) {
        let (low, range) = self.state;
        let (row, unit) = (&self.rows[0], range >> 10);
        let limit = unit * TOTAL as u32;
        if low >= limit {
            return (3 + (low == limit) as usize, low < range, low > 0xffffff, 0, None);
        }
        let symbol = row.owner((low / unit) as usize);
        let width = unit * row.frequency[symbol] as u32;
        let within = match low - unit * row.cumulative[symbol] as u32 {
            0 => 0,
            n => 1 + (n == width - 1) as usize,
        };
        let wanted = (width < 0x10000) as usize + (width < 0x100) as usize;
        let there = self.buf.len().checked_sub(self.at.0).map(|n| n.min(wanted));
        (within, symbol == 0, symbol == row.len() - 1, wanted, if wanted == 0 { None } else { there })
    }
}

impl Seen {
    fn say(&self) {
        let [none, one, two] = self.symbols;
        eprintln!(
            "oracle range_decoder: {} symbols, {} of them with no byte, {} with one, {} with two; refused 11: {}, 10 with \
             no byte there: {}, with one of two: {}",
            none + one + two,
            none,
            one,
            two,
            self.beyond,
            self.short[0],
            self.short[1]
        );
    }
}

// Every length up to `most`, every head up to 3 past the end; and cursors at the end of the domain.
fn starts(rng: &mut Rng, most: usize, out: &mut Records) {
    for len in 0..=most {
        for head in 0..=len + 3 {
            let tail = rng.below(8 * (len + 2));
            put_start(out, (head, tail), &rng.bytes(len));
        }
        for far in [(FAR, rng.below(FAR + 1)), (FAR - 1, FAR), (0, FAR), (1, FAR - 1)] {
            put_start(out, far, &rng.bytes(len));
        }
    }
}

fn random_start(rng: &mut Rng, out: &mut Records) {
    let len = rng.below(401);
    let head = match rng.below(4) {
        0 => rng.below(FAR + 1),
        1 => (len + rng.below(5)).saturating_sub(4),
        _ => rng.below(len + 1),
    };
    let tail = rng.below(8 * (len + 4));
    put_start(out, (head, tail), &rng.bytes(len));
}

// The rows of the systematic steps, from one symbol to 1,024.
fn fixed_rows() -> Vec<Row> {
    let mut all = vec![rows::flat(1), rows::flat(2), rows::flat(8), rows::flat(17), rows::flat(TOTAL)];
    all.extend([rows::peaked(2, 0), rows::peaked(2, 1), rows::peaked(17, 0), rows::peaked(17, 16)]);
    all.extend([rows::around(vec![1, 2, 3, 4], 4), rows::around(vec![4, 3, 2, 1], 0)]);
    all.extend([rows::peaked(1000, 500), rows::peaked(TOTAL - 1, 0)]);
    all
}

// Places of low: at each border and beside it, at the limit and beside it, and far past it.
fn lows(rng: &mut Rng, range: u32, row: &Row) -> Vec<u32> {
    let unit = range >> 10;
    let symbols: Vec<usize> = match row.len() {
        n @ 0..=20 => (0..n).collect(),
        n => [0, 1, 2, n - 3, n - 2, n - 1, n / 2].into_iter().chain((0..5).map(|_| rng.below(n))).collect(),
    };
    let mut at: Vec<u32> = symbols.iter().map(|k| unit * row.cumulative[*k] as u32).collect();
    at.extend([unit * TOTAL as u32, range, 0x1000000, 1 << 31, u32::MAX]);
    let mut all: Vec<u32> = at.iter().flat_map(|n| [n.wrapping_sub(1), *n, n.wrapping_add(1)]).collect();
    all.sort();
    all.dedup();
    all
}

// One step at a head, with so many bytes from there on; or past the end.
fn single(rng: &mut Rng, state: door::State, row: Row, there: Option<usize>) -> Steps {
    let (head, len) = match there {
        Some(n) => {
            let head = rng.below(6);
            (head, head + n)
        }
        None => {
            let len = rng.below(6);
            (len + 1 + rng.below(3), len)
        }
    };
    let tail = rng.below(8 * (len + 2));
    Steps { at: (head, tail), state, rows: vec![row], list: vec![0], buf: rng.bytes(len) }
}

// Every row, range and low, each with no byte, one, two and more from the head on, and with the head past the end.
fn limits(rng: &mut Rng, rows: &[Row], mut take: impl FnMut(Steps)) {
    for row in rows {
        for range in RANGES {
            for low in lows(rng, range, row) {
                for there in [Some(0), Some(1), Some(2), Some(3), None] {
                    take(single(rng, (low, range), row.clone(), there));
                }
            }
        }
    }
}

fn random_range(rng: &mut Rng) -> u32 {
    match rng.below(4) {
        0 => RANGES[rng.below(RANGES.len())],
        1 => 0x10000 + rng.below(0x40000) as u32,
        _ => 0x10000 + rng.below(0xff0000) as u32,
    }
}

fn random_single(rng: &mut Rng) -> Steps {
    let len = match rng.below(20) {
        0..=16 => 1 + rng.below(40),
        17..=18 => 1 + rng.below(300),
        _ => 1 + rng.below(TOTAL),
    };
    let row = rows::any(rng, len);
    let range = random_range(rng);
    let low = match rng.below(8) {
        0 => rng.next() as u32,
        1 => rng.below(range as usize) as u32,
        2 => (range >> 10) * row.cumulative[rng.below(len)] as u32 + rng.below(3) as u32,
        _ => rng.below((range as usize >> 10) * TOTAL) as u32,
    };
    let there = [None, Some(0), Some(1), Some(2), Some(300)][rng.below(5)];
    let mut steps = single(rng, (low, range), row, there);
    if rng.below(50) == 0 {
        steps.at = (FAR - rng.below(3), FAR - rng.below(3));
    }
    steps
}

// A frame's start or any state, and steps until the list or the frame ends.
fn chain(rng: &mut Rng) -> Steps {
    let rows = rows::some(rng);
    let list: Vec<usize> = (0..1 + rng.below(CHAIN)).map(|_| rng.below(rows.len())).collect();
    let most = [20, 60, 397][rng.below(3)];
    let len = 3 + rng.below(most);
    let buf = rng.bytes(len);
    let tail = rng.below(8 * len);
    if rng.below(2) == 0 {
        let low = u32::from_be_bytes([0, buf[0], buf[1], buf[2]]);
        return Steps { at: (3, tail), state: (low, 0xffffff), rows, list, buf };
    }
    let range = random_range(rng);
    let low = rng.below((range as usize >> 10) * TOTAL) as u32;
    Steps { at: (rng.below(len.min(20)), tail), state: (low, range), rows, list, buf }
}

pub fn run(out: &mut Records, seed: u64, count: usize) {
    let rng = &mut Rng::new(seed);
    let seen = &mut Seen::default();
    starts(rng, 8, out);
    limits(rng, &fixed_rows(), |steps| steps.put(out, seen));
    for i in 0..count {
        match i % CHAINS {
            0 => chain(rng).put(out, seen),
            1 => random_start(rng, out),
            _ => random_single(rng).put(out, seen),
        }
    }
    seen.say();
}

// Of short buffers the starts; of the systematic steps by short rows one case of each class; steps by the longest row; some
// chains.
pub fn sample(out: &mut Records) {
    let rng = &mut Rng::new(0);
    let pick = &mut Rng::new(1);
    let seen = &mut Seen::default();
    starts(rng, 4, out);
    let mut short = fixed_rows();
    short.retain(|row| row.len() <= 20);
    let mut classes = OneOfEach::new();
    limits(rng, &short, |steps| classes.take(pick, steps.class(), steps));
    classes.cases().for_each(|steps| steps.put(out, seen));
    for low in [0, 16383 * 1023 - 1, 16383 * 1024 - 1, 16383 * 1024] {
        single(rng, (low, 0xffffff), rows::flat(TOTAL), Some(1)).put(out, seen);
    }
    for _ in 0..16 {
        let mut steps = search("a chain by short rows", || {
            let steps = chain(rng);
            (steps.rows.iter().map(Row::len).sum::<usize>() < 80).then_some(steps)
        });
        steps.list.truncate(24);
        steps.buf.truncate(30);
        steps.put(out, seen);
    }
    seen.say();
}
