// A record to write, and what is said of it: by document 01's rules for refusals 13, 14 and 15, by counts for its late bits.

// Places in the side information.
pub const SIDE: usize = 19;
pub const BANDWIDTH: usize = 0;
pub const LASTNZ: usize = 1;
pub const LSB: usize = 2;
pub const GAIN: usize = 3;
pub const TNS: usize = 4;
pub const PITCH: usize = 6;
pub const LF: usize = 7;
pub const HF: usize = 8;
pub const MSB: usize = 9;
pub const SUBMODE_LSB: usize = 10;
pub const SNS_GAIN: usize = 11;
pub const LS_INDA: usize = 12;
pub const IDX_A: usize = 13;
pub const LS_INDB: usize = 14;
pub const IDX_B: usize = 15;
pub const ACTIVE: usize = 16;
pub const INDEX: usize = 17;
pub const NOISE: usize = 18;

// The side information's fields in order, the orders, and sixteen indices.
pub const FIELDS: usize = SIDE + 2 + 16;

#[derive(Clone, Debug, PartialEq)]
pub struct Content {
    pub side: [u32; SIDE],
    pub orders: [usize; 2],
    pub indices: [usize; 16],
    pub lines: Vec<i16>,
    pub residual: Vec<u8>,
}

#[derive(Clone, Debug)]
pub struct Case {
    pub fs_ind: usize,
    pub duration: usize,
    // bytes of the frame
    pub len: usize,
    pub content: Content,
    // the field that alone is put outside what it may be
    pub spoilt: Option<usize>,
}

pub fn lines_of(fs_ind: usize, duration: usize) -> usize {
    [80, 60][duration] * (fs_ind + 1)
}

// A refusal: its number, and its value, 0 where absent.
#[derive(Clone, Copy, Debug, PartialEq)]
pub struct Refused(pub u32, pub usize);

// By shape: the largest gain and the largest idx_a.
pub const GAIN_MOST: [u32; 4] = [1, 3, 3, 7];
pub const IDX_MOST: [u32; 4] = [2_390_003, 2_390_003, 15_158_271, 774_911];

impl Content {
    pub fn shape(&self) -> usize {
        2 * self.side[MSB] as usize + self.side[SUBMODE_LSB] as usize
    }

    pub fn least_bits(&self) -> bool {
        self.side[LSB] == 1
    }

    pub fn lastnz(&self) -> usize {
        self.side[LASTNZ] as usize
    }

    pub fn nonzero(&self) -> usize {
        self.lines.iter().filter(|x| **x != 0).count()
    }

    // By the place among all fields, for a change to any of them.
    pub fn set(&mut self, field: usize, value: usize) {
        if field < SIDE {
            self.side[field] = value as u32;
        } else if field < SIDE + 2 {
            self.orders[field - SIDE] = value;
        } else {
            self.indices[field - SIDE - 2] = value;
        }
    }
}

impl Case {
    pub fn ne(&self) -> usize {
        lines_of(self.fs_ind, self.duration)
    }

    pub fn bits(&self) -> usize {
        8 * self.len
    }

    // 13 to 15, in their order.
    pub fn refused(&self) -> Option<Refused> {
        if !self.side_passes() || !(0..2).all(|f| self.filter_passes(f)) {
            return Some(Refused(13, 0));
        }
        if let Some(place) = (0..self.content.lines.len()).find(|k| self.line_fails(*k)) {
            return Some(Refused(14, place));
        }
        (self.content.residual.len() > self.content.nonzero()).then_some(Refused(15, 0))
    }

    fn side_passes(&self) -> bool {
        let s = &self.content.side;
        let is = |so: bool| so as u32;
        let shape = self.content.shape().min(3);
        let most = [
            self.fs_ind as u32,
            self.ne() as u32,
            1,
            255,
            1,
            is(s[BANDWIDTH] >= 3),
            1,
            31,
            31,
            1,
            1,
            GAIN_MOST[shape],
            1,
            IDX_MOST[shape],
            is(shape == 0),
            5 * is(shape == 0),
            is(s[PITCH] == 1),
            511 * is(s[PITCH] == 1),
            7,
        ];
        s.iter().zip(most).all(|(value, most)| *value <= most) && s[LASTNZ] >= 2 && s[LASTNZ] % 2 == 0
    }

    // An order, the flag that says it is not 0, and the indices: up to 16 below the order, 0 from there on.
    fn filter_passes(&self, f: usize) -> bool {
        let order = self.content.orders[f];
        let most = |k: usize| if k < order { 16 } else { 0 };
        order <= 8
            && self.content.side[TNS + f] == (order != 0) as u32
            && (0..8).all(|k| self.content.indices[8 * f + k] <= most(k))
    }

    pub fn line_fails(&self, k: usize) -> bool {
        let line = self.content.lines[k];
        line == i16::MIN || k >= self.content.lastnz() && line != 0
    }
}

// A late bit: its line, and whether it is the sign of a magnitude 1.
#[derive(Clone, Copy)]
pub struct Late {
    pub line: usize,
    pub is_sign: bool,
}

impl Content {
    // Two bits of each magnitude are in the pair's last symbol, and an escape stands for every further one.
    pub fn escapes(&self, pair: usize) -> u32 {
        let most = self.lines[2 * pair].unsigned_abs().max(self.lines[2 * pair + 1].unsigned_abs());
        most.max(2).ilog2() - 1
    }

    pub fn escaped(&self, pair: usize) -> bool {
        self.escapes(pair) > 0
    }

    // In least-bit mode: the lowest bit of each line of an escaped pair, and behind it the sign of a magnitude 1.
    pub fn late(&self) -> Vec<Late> {
        let mut late = Vec::new();
        for line in (0..self.lastnz()).filter(|line| self.escaped(line / 2)) {
            late.push(Late { line, is_sign: false });
            if self.lines[line].unsigned_abs() == 1 {
                late.push(Late { line, is_sign: true });
            }
        }
        late
    }

    // How many bits come late where there is room for all.
    pub fn late_count(&self) -> usize {
        if self.least_bits() {
            self.late().len()
        } else {
            self.residual.len()
        }
    }

    // What the standard's reader returns of it, by the room for late bits.
    pub fn returned(&self, room: usize) -> Content {
        let mut back = self.clone();
        if !self.least_bits() {
            back.residual.truncate(room);
            back.residual.iter_mut().for_each(|bit| *bit %= 2);
            back.residual.resize(room.min(self.nonzero()), 0);
            return back;
        }
        back.residual.clear();
        // a lowest bit without room is 0, and so is a magnitude 1 whose sign has none
        for late in self.late().iter().skip(room) {
            back.lines[late.line] = self.lines[late.line] / 2 * 2;
        }
        back
    }
}
