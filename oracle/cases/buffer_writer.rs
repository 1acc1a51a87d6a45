// Cases of the buffer writer: each operation at every place of short buffers, around every limit, and at random.
// The limits below only aim the cases; every answer is the Rust's, but where it panics.

use crate::lc3::encoder::buffer_writer::{door, BufferWriter};
use crate::records::{self, beyond, refused, Answer, OneOfEach, Records, Rng};

const WIDTHS: [usize; 11] = [1, 2, 3, 4, 5, 6, 7, 8, 9, 24, 25];
// the largest cursor that is compared
const FAR: usize = 65_535;

// The Rust's writer at a head in bytes and a tail in bits; as there, the byte before the first is 65535. At both ends it
// is a new one.
pub fn writer_at(len: usize, (head, tail): (usize, usize)) -> BufferWriter {
    if (head, tail) == (0, 0) {
        return BufferWriter::new(len);
    }
    let byte = (len as u16).wrapping_sub(1).wrapping_sub((tail / 8) as u16);
    door::at(head, byte, 1 << (tail % 8))
}

// The answer of a write that the Rust did: where its writer stands, and the buffer's bytes.
pub fn written(writer: &BufferWriter, buf: &[u8]) -> Answer {
    let (byte, mask) = door::tail(writer);
    let tail_bytes = (buf.len() as u16).wrapping_sub(1).wrapping_sub(byte);
    records::written(&[writer.bp, 8 * tail_bytes as usize + mask.trailing_zeros() as usize], buf)
}

#[derive(Clone, Copy)]
enum Op {
    Field(usize),
    Bit,
    Byte,
    Top(usize),
}

fn all_ops() -> Vec<Op> {
    let mut ops: Vec<Op> = WIDTHS.iter().map(|n| Op::Field(*n)).collect();
    ops.extend([Op::Bit, Op::Byte]);
    ops.extend((1..=8).map(Op::Top));
    ops
}

impl Op {
    // The number of its kind, and its width as a case has it.
    fn kind(self) -> (u8, usize) {
        match self {
            Op::Field(n) => (17, n),
            Op::Bit => (18, 0),
            Op::Byte => (19, 0),
            Op::Top(n) => (20, n),
        }
    }

    // The bits that it takes at the tail; None at the head.
    fn tail_bits(self) -> Option<usize> {
        match self {
            Op::Field(n) => Some(n),
            Op::Bit => Some(1),
            Op::Byte | Op::Top(_) => None,
        }
    }

    // A value of any size that the operation takes; one case in four fits its field.
    fn value(self, rng: &mut Rng) -> u32 {
        let any = rng.next() as u32;
        match self {
            Op::Field(n) if rng.below(4) == 0 => any & ((1 << n) - 1),
            Op::Field(_) => any,
            Op::Bit => any & 1,
            Op::Byte | Op::Top(_) => any & 255,
        }
    }
}

struct Case {
    op: Op,
    head: usize,
    tail: usize,
    value: u32,
    buf: Vec<u8>,
}

impl Case {
    fn new(rng: &mut Rng, op: Op, len: usize, (head, tail): (usize, usize)) -> Self {
        Case { op, head, tail, value: op.value(rng), buf: rng.bytes(len) }
    }

    // Kind and numbers.
    fn call(&self) -> (u8, [usize; 4]) {
        let (kind, width) = self.op.kind();
        (kind, [self.head, self.tail, width, self.value as usize])
    }

    fn put(&self, out: &mut Records) {
        let (kind, numbers) = self.call();
        out.put_said(kind, (&numbers, &self.buf), self.panics(), || self.answer());
    }

    // Past the domain: a write at the tail is refused 9 with its cursor, whatever that is, and the Rust is not asked.
    fn put_beyond(&self, out: &mut Records) {
        let (kind, numbers) = self.call();
        if let Some(width) = self.op.tail_bits() {
            out.put(kind, (&numbers, &self.buf), &refused(9, &[width, self.tail]));
        }
    }

    // The Rust panics at every write that has no room.
    fn panics(&self) -> Option<Answer> {
        let len = self.buf.len();
        match self.op.tail_bits() {
            Some(n) => (self.tail + n > 8 * len).then(|| refused(9, &[n, self.tail])),
            None => (self.head >= len).then(|| refused(10, &[self.head])),
        }
    }

    fn answer(&self) -> Answer {
        let mut buf = self.buf.clone();
        let mut writer = writer_at(buf.len(), (self.head, self.tail));
        match self.op {
            Op::Field(n) => writer.write_uint_backward(&mut buf, self.value as usize, n),
            Op::Bit => writer.write_bool_backward(&mut buf, self.value != 0),
            Op::Byte => writer.write_byte_forward(&mut buf, self.value as u8),
            Op::Top(n) => writer.write_uint_forward(&mut buf, self.value as u16, n),
        }
        written(&writer, &buf)
    }

    // Where the write ends: inside, in the last byte there is, exactly at its end, across it, or wholly past it.
    fn room(&self) -> u8 {
        let len = self.buf.len();
        match self.op.tail_bits() {
            Some(_) if self.tail >= 8 * len => 4,
            Some(n) if self.tail + n > 8 * len => 3,
            Some(n) if self.tail + n == 8 * len => 2,
            Some(n) => (self.tail + n + 8 > 8 * len) as u8,
            None if self.head > len => 4,
            None if self.head == len => 3,
            None => 2 * (self.head + 1 == len) as u8,
        }
    }

    // Kind, width, the given number and the room.
    fn class(&self, by: usize) -> ((u8, usize), usize, u8) {
        (self.op.kind(), by, self.room())
    }
}

// Lengths 0 to 6: every head up to 2 past the end, every tail up to 2 bytes past the start.
fn exhaustive(rng: &mut Rng, mut take: impl FnMut(Case)) {
    for len in 0..=6 {
        for head in 0..=len + 2 {
            for tail in 0..=8 * (len + 2) {
                for op in all_ops() {
                    take(Case::new(rng, op, len, (head, tail)));
                }
            }
        }
    }
}

// Every operation where it ends exactly at the last place, and up to a byte and a bit to each side.
fn limits(rng: &mut Rng, len: usize, mut take: impl FnMut(Case)) {
    for op in all_ops() {
        for off in 0..=18 {
            let at = match op.tail_bits() {
                Some(n) => (rng.below(len + 4), (8 * len - n + off).saturating_sub(9)),
                None => ((len + off).saturating_sub(10), rng.below(8 * (len + 4))),
            };
            take(Case::new(rng, op, len, at));
        }
    }
}

// Every operation with one or both cursors at the end of the domain.
fn far(rng: &mut Rng, len: usize, mut take: impl FnMut(Case)) {
    for op in all_ops() {
        for back in 0..8 {
            let end = FAR - back;
            for at in [(end, back), (back, end), (end, end)] {
                take(Case::new(rng, op, len, at));
            }
        }
    }
}

fn random(rng: &mut Rng) -> Case {
    let ops = all_ops();
    let op = ops[rng.below(ops.len())];
    let len = match rng.below(200) {
        0..=182 => rng.below(61),
        183..=198 => 61 + rng.below(340),
        _ => 401 + rng.below(3600),
    };
    let at = match rng.below(8) {
        0 => (rng.below(FAR + 1), rng.below(FAR + 1)),
        1 => (rng.below(len + 4), rng.below(8 * (len + 4))),
        // near the limits
        2 => ((len + rng.below(5)).saturating_sub(3), (8 * len + rng.below(20)).saturating_sub(40)),
        // mostly where there is room
        _ => (rng.below(len + 1), rng.below((8 * len).saturating_sub(op.tail_bits().unwrap_or(0)) + 1)),
    };
    Case::new(rng, op, len, at)
}

pub fn run(out: &mut Records, seed: u64, count: usize) {
    let rng = &mut Rng::new(seed);
    exhaustive(rng, |case| case.put(out));
    for len in [7, 8, 9, 20, 40, 60, 100, 155, 400, 1000, 4000] {
        limits(rng, len, |case| case.put(out));
    }
    for len in [0, 1, 20, 400] {
        far(rng, len, |case| case.put(out));
    }
    for _ in 0..count {
        random(rng).put(out);
    }
}

// A new writer in every call; of the short buffers one case of each class, by length and by bit index; then some of
// longer ones and far cursors; and past the domain.
pub fn sample(out: &mut Records) {
    let rng = &mut Rng::new(0);
    let pick = &mut Rng::new(1);
    all_ops().into_iter().for_each(|op| Case::new(rng, op, 9, (0, 0)).put(out));
    for by_length in [true, false] {
        let mut classes = OneOfEach::new();
        exhaustive(rng, |case| {
            let by = match case.op.tail_bits() {
                _ if by_length => case.buf.len(),
                Some(_) => case.tail % 8,
                None => 0,
            };
            classes.take(pick, case.class(by), case)
        });
        classes.cases().for_each(|case| case.put(out));
    }
    let mut one_in = |n: usize, case: Case| {
        if pick.below(n) == 0 {
            case.put(out)
        }
    };
    limits(rng, 20, |case| one_in(1, case));
    limits(rng, 60, |case| one_in(8, case));
    limits(rng, 400, |case| one_in(20, case));
    far(rng, 3, |case| one_in(6, case));
    for at in beyond() {
        all_ops().into_iter().for_each(|op| Case::new(rng, op, 20, at).put_beyond(out));
    }
}
