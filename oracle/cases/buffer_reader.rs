// Cases of the buffer reader: each operation at every bit index, around every limit, and at random.
// The limits below only aim the cases; every answer is the Rust's, but where it panics.

use crate::lc3::decoder::buffer_reader::{BufferReader, BufferReaderError};
use crate::records::{accepted, beyond, hold, no_tail_room, refused, Answer, OneOfEach, Records, Rng};

const WIDTHS: [usize; 11] = [1, 2, 3, 4, 5, 6, 7, 8, 9, 24, 25];
// the largest cursor that is compared
const FAR: usize = 65_535;

// The Rust's reader at a head in bytes and a tail in bits; at both ends it is a new one.
pub fn reader_at((head, tail): (usize, usize)) -> BufferReader {
    match (head, tail) {
        (0, 0) => BufferReader::new(),
        _ => BufferReader::new_at(head, tail),
    }
}

// Where the Rust's reader stands.
pub fn cursors(reader: &BufferReader) -> (usize, usize) {
    (reader.get_head_byte_cursor(), reader.get_tail_bit_cursor())
}

#[derive(Clone, Copy)]
enum Op {
    Byte,
    Three,
    Bits(usize),
    Bit,
}

fn all_ops() -> Vec<Op> {
    let mut ops = vec![Op::Byte, Op::Three, Op::Bit];
    ops.extend(WIDTHS.iter().map(|n| Op::Bits(*n)));
    ops
}

struct Case {
    op: Op,
    head: usize,
    tail: usize,
    buf: Vec<u8>,
}

impl Case {
    fn new(rng: &mut Rng, op: Op, len: usize, (head, tail): (usize, usize)) -> Self {
        Case { op, head, tail, buf: rng.bytes(len) }
    }

    // Kind and numbers.
    fn call(&self) -> (u8, [usize; 3]) {
        let (kind, width) = match self.op {
            Op::Byte => (1, 0),
            Op::Three => (2, 0),
            Op::Bits(n) => (3, n),
            Op::Bit => (4, 0),
        };
        (kind, [self.head, self.tail, width])
    }

    fn put(&self, out: &mut Records) {
        let (kind, numbers) = self.call();
        out.put_said(kind, (&numbers, &self.buf), self.panics(), || self.answer());
    }

    // Past the domain: a read of the tail is refused 9 with its cursor, whatever that is, and the Rust is not asked.
    fn put_beyond(&self, out: &mut Records) {
        let (kind, numbers) = self.call();
        let width = match self.op {
            Op::Bits(n) => n,
            Op::Bit => 1,
            Op::Byte | Op::Three => return,
        };
        out.put(kind, (&numbers, &self.buf), &refused(9, &[width, self.tail]));
    }

    // The Rust's own test lets one bit through whose byte is not in the buffer; document 01 refuses it.
    fn panics(&self) -> Option<Answer> {
        let (len, byte) = (self.buf.len(), self.tail / 8);
        let is_bit = matches!(self.op, Op::Bit);
        (is_bit && self.head + byte <= len + 2 && byte >= len).then(|| refused(9, &[1, self.tail]))
    }

    fn answer(&self) -> Answer {
        let buf = &self.buf[..];
        let mut reader = reader_at((self.head, self.tail));
        let value = match self.op {
            Op::Byte => reader.read_head_byte(buf).map(|v| v as u32),
            Op::Three => reader.read_head_u24(buf),
            Op::Bits(n) => reader.read_tail_usize(buf, n).map(|v| v as u32),
            Op::Bit => reader.read_tail_bool(buf).map(|v| v as u32),
        };
        let (head, tail) = cursors(&reader);
        hold(value.is_ok() || (head, tail) == (self.head, self.tail), "a refused read moves a cursor");
        match value {
            Ok(v) => accepted(&[head, tail, v as usize]),
            Err(BufferReaderError::ReadByteOutOfBounds(h)) => refused(10, &[h]),
            Err(BufferReaderError::ReadU24OutOfBounds(h)) => refused(10, &[h]),
            Err(BufferReaderError::BigEndianBitReaderReadUsizeNumBitsOutOfRange(n, b)) => no_tail_room(n, b, tail),
            Err(BufferReaderError::BigEndianBitReaderReadBoolOutOfRange(b)) => no_tail_room(1, b, tail),
        }
    }

    // Kind, length, width, bit index, and how far the case is from its limits: well inside, at, just past or well past.
    fn class(&self) -> (u8, usize, usize, usize, i64, i64) {
        let (len, byte, b) = (self.buf.len(), self.tail / 8, self.tail % 8);
        let room = |used: usize| (limit(self.op, len, b) - used as i64).max(-2).min(1);
        match self.op {
            Op::Byte => (1, len, 0, 0, room(self.head), 0),
            Op::Three => (2, len, 0, 0, room(self.head), 0),
            Op::Bits(n) => (3, len, n, b, room(self.head + byte), 0),
            Op::Bit => (4, len, 0, b, room(self.head + byte), (byte < len) as i64),
        }
    }
}

// The bytes that a field of n bits at bit index b takes.
pub fn bytes_of(n: usize, b: usize) -> usize {
    n / 8 + if n > 8 - b && n < 8 { 2 } else { 1 }
}

// The largest head + tail/8 that is accepted of a buffer of len bytes; a head read counts the head alone. May be negative.
fn limit(op: Op, len: usize, b: usize) -> i64 {
    let len = len as i64;
    match op {
        Op::Byte => len - 1,
        Op::Three => len - 3,
        Op::Bits(n) => len - bytes_of(n, b) as i64,
        Op::Bit => len + 2,
    }
}

// Lengths 0 to 6: every head up to 4 past the end, every tail up to 4 bytes past the start.
fn exhaustive(rng: &mut Rng, mut take: impl FnMut(Case)) {
    for len in 0..=6 {
        for head in 0..=len + 4 {
            for tail in 0..=8 * (len + 4) {
                for op in all_ops() {
                    take(Case::new(rng, op, len, (head, tail)));
                }
            }
        }
    }
}

// A sum of head and tail/8 split in four ways, at bit index b.
fn splits(rng: &mut Rng, sum: usize, b: usize) -> [(usize, usize); 4] {
    let some = rng.below(sum + 1);
    [0, 1.min(sum), some, sum].map(|head| (head, 8 * (sum - head) + b))
}

// Every operation and bit index at its limit and up to 2 to each side.
fn limits(rng: &mut Rng, len: usize, mut take: impl FnMut(Case)) {
    for op in all_ops() {
        for b in 0..8 {
            for off in -2..=2 {
                let mut cursors = Vec::new();
                let at = limit(op, len, b) + off;
                if at >= 0 {
                    let at = at as usize;
                    match op {
                        Op::Byte | Op::Three => cursors.extend([(at, b), (at, 8 * rng.below(len + 4) + b)]),
                        Op::Bits(_) | Op::Bit => cursors.extend(splits(rng, at, b)),
                    }
                }
                // a bit has a second limit: its byte has to be in the buffer, wherever the head is
                let byte = len as i64 - 1 + off;
                if let (Op::Bit, true) = (op, byte >= 0) {
                    let tail = 8 * byte as usize + b;
                    cursors.extend([0, 1, 2, 3, rng.below(len + 4)].map(|head| (head, tail)));
                }
                for at in cursors {
                    take(Case::new(rng, op, len, at));
                }
            }
        }
    }
}

// Every operation with one or both cursors at the end of the domain.
fn far(rng: &mut Rng, len: usize, mut take: impl FnMut(Case)) {
    for op in all_ops() {
        for back in 0..8 {
            let end = FAR - back;
            for at in [(end, back), (back, end), (end, end), (FAR, end), (end, FAR)] {
                take(Case::new(rng, op, len, at));
            }
        }
    }
}

fn random(rng: &mut Rng) -> Case {
    let ops = all_ops();
    let op = ops[rng.below(ops.len())];
    let len = match rng.below(100) {
        0..=64 => rng.below(41),
        65..=98 => 20 + rng.below(381),
        _ => 401 + rng.below(3600),
    };
    let b = rng.below(8);
    let at = match rng.below(4) {
        0 => (rng.below(FAR + 1), rng.below(FAR + 1)),
        1 => (rng.below(len + 4), rng.below(8 * (len + 4))),
        way => {
            // near the limit, or anywhere up to it
            let most = limit(op, len, b).max(0) as usize;
            let sum = if way == 2 { (most + rng.below(7)).saturating_sub(3) } else { rng.below(most + 1) };
            let head = rng.below(sum + 1);
            match op {
                Op::Byte | Op::Three => (sum, rng.below(8 * (len + 4))),
                Op::Bits(_) | Op::Bit => (head, 8 * (sum - head) + b),
            }
        }
    };
    Case::new(rng, op, len, at)
}

pub fn run(out: &mut Records, seed: u64, count: usize) {
    let rng = &mut Rng::new(seed);
    exhaustive(rng, |case| case.put(out));
    for len in [7, 8, 9, 20, 40, 100, 155, 400, 1000, 4000] {
        limits(rng, len, |case| case.put(out));
        far(rng, len, |case| case.put(out));
    }
    for _ in 0..count {
        random(rng).put(out);
    }
}

// A new reader in every call; one case of each class that the short lengths have; some at the limits of longer frames and
// at the far cursors; and past the domain.
pub fn sample(out: &mut Records) {
    let rng = &mut Rng::new(0);
    let pick = &mut Rng::new(1);
    all_ops().into_iter().for_each(|op| Case::new(rng, op, 9, (0, 0)).put(out));
    let mut classes = OneOfEach::new();
    exhaustive(rng, |case| classes.take(pick, case.class(), case));
    classes.cases().for_each(|case| case.put(out));
    let mut one_in = |n: usize, case: Case| {
        if pick.below(n) == 0 {
            case.put(out)
        }
    };
    limits(rng, 20, |case| one_in(8, case));
    limits(rng, 400, |case| one_in(200, case));
    far(rng, 3, |case| one_in(8, case));
    for at in beyond() {
        all_ops().into_iter().for_each(|op| Case::new(rng, op, 20, at).put_beyond(out));
    }
}
