// A case, and an answer to it in a form that both sides are brought into.

#[derive(Clone, Debug)]
pub struct Case {
    pub fs_ind: usize,
    pub duration: usize,
    pub frame: Vec<u8>,
    // how many lines are lent
    pub room: usize,
    // a frame of a recording, as it is
    pub real: bool,
}

impl Case {
    pub fn ne(&self) -> usize {
        [80, 60][self.duration] * (self.fs_ind + 1)
    }
}

// Places in the side information.
pub const SIDE: usize = 19;
const LSB: usize = 2;
const NOISE: usize = 18;

#[derive(Clone, Debug, PartialEq)]
pub struct Read {
    // in the order of the record
    pub side: [u32; SIDE],
    pub orders: [usize; 2],
    pub indices: [usize; 16],
    pub residual: Vec<u8>,
    pub seed: u32,
    pub zero: bool,
    pub head: usize,
    pub tail: usize,
    pub range: u32,
    // as lent, to the end
    pub lines: Vec<i32>,
}

impl Read {
    pub fn least_bits(&self) -> bool {
        self.side[LSB] == 1
    }

    pub fn noise(&self) -> u32 {
        self.side[NOISE]
    }

    // Document 01's count of bits, by the final cursors and range.
    pub fn used(&self) -> usize {
        self.tail + 8 * (self.head - 3) + 25 - self.range.ilog2() as usize
    }
}

// Number, values (0 where absent), the step and its numbers (0 where absent).
#[derive(Clone, Debug, PartialEq)]
pub struct Refused {
    pub number: u32,
    pub values: [usize; 2],
    pub step: [usize; 3],
}

impl Refused {
    pub fn new(number: u32, values: &[usize], step: &[usize]) -> Self {
        let at = |list: &[usize], k: usize| list.get(k).copied().unwrap_or(0);
        Refused { number, values: [at(values, 0), at(values, 1)], step: [at(step, 0), at(step, 1), at(step, 2)] }
    }
}

// No step, then the steps of document 01 in its order.
pub const STEPS: [&str; 7] = ["nowhere", "side", "start", "order", "coef", "symbol", "bit"];

#[derive(Clone, Debug, PartialEq)]
pub enum Answer {
    Read(Read),
    Refused(Refused),
}
