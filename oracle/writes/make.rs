// The cases: records of real frames and changed ones, and made ones, many of which need just about the bits of their frame.

use super::content::*;
use super::rust::need;
use crate::frames::sets::{fixed, random, Lent};
use crate::lc3::tables::{Set, FLAT};
use crate::records::Rng;
use crate::rows::peaked;

// as many records one behind the other share a table set
pub const BLOCK: usize = 128;
// the last symbol of a row, which is an escape
const ESCAPE: usize = 16;

#[derive(Clone, Copy, Debug, PartialEq)]
pub enum Kind {
    Standard,
    Flat,
    Random,
    // rows by which pairs of one kind cost next to nothing, so that the tail fills the frame before the coder sends a byte
    Cheap(Cheap),
}

// The pairs that are cheap: so many escapes, then a symbol.
#[derive(Clone, Copy, Debug, PartialEq)]
pub struct Cheap {
    pub escapes: usize,
    pub symbol: usize,
}

impl Cheap {
    pub fn any(rng: &mut Rng) -> Self {
        let (escapes, symbol) = (rng.below(4), rng.below(16));
        // after an escape a magnitude of 2 or 3 is left
        let symbol = if escapes > 0 && symbol % 4 < 2 { symbol | 8 } else { symbol };
        Cheap { escapes, symbol }
    }

    // Row and level are one number.
    pub fn set(self) -> Set {
        let mut set = FLAT;
        set.lookup.iter_mut().enumerate().for_each(|(i, entry)| *entry = (i / 1024) as u8);
        for level in 0..self.escapes {
            set.spectral[level] = fixed(peaked(17, ESCAPE));
        }
        set.spectral[self.escapes] = fixed(peaked(17, self.symbol));
        set
    }

    fn pair(self, rng: &mut Rng) -> [i16; 2] {
        [self.symbol % 4, self.symbol / 4].map(|top| {
            let low = rng.below(1 << self.escapes);
            signed(rng, top << self.escapes | low)
        })
    }
}

// The records of real frames, and their table set.
pub struct Real {
    pub set: Set,
    pub cases: Vec<Case>,
}

pub struct Maker {
    rng: Rng,
    real: Option<Real>,
    kind: Kind,
    set: Lent,
}

impl Maker {
    pub fn new(seed: u64, real: Option<Real>) -> Self {
        Maker { rng: Rng::new(seed), real, kind: Kind::Flat, set: Lent::of(&FLAT) }
    }

    // The set in force, for the case that was made last.
    pub fn set(&self) -> &Lent {
        &self.set
    }

    pub fn kind(&self) -> Kind {
        self.kind
    }

    // How many records are of real frames.
    pub fn real(&self) -> usize {
        self.real.as_ref().map_or(0, |real| real.cases.len())
    }

    // Some of the made ones are spoilt.
    pub fn case(&mut self, at: usize) -> Case {
        let mut case = self.sound(at);
        if at >= self.real() && self.rng.below(6) == 0 {
            spoil(&mut self.rng, &mut case);
        }
        case
    }

    // First every real frame's record at its length; then blocks of records by one set each. None is refused 13 to 15.
    pub fn sound(&mut self, at: usize) -> Case {
        let count = self.real();
        if at < count {
            let real = self.real.as_ref().expect("there are real frames");
            if at == 0 {
                self.kind = Kind::Standard;
                self.set = Lent::of(&real.set);
            }
            return real.cases[at].clone();
        }
        if (at - count) % BLOCK == 0 {
            self.block();
        }
        let rng = &mut self.rng;
        let mut case = match (&self.real, self.kind) {
            (Some(real), Kind::Standard) if rng.below(3) != 0 => changed(rng, &real.cases),
            (_, kind) => made(rng, kind),
        };
        fit(rng, &mut case);
        put_residual(rng, &mut case.content);
        case
    }

    fn block(&mut self) {
        let rng = &mut self.rng;
        let (kind, set) = match (rng.below(20), &self.real) {
            (0..=5, Some(real)) => (Kind::Standard, real.set.clone()),
            (6..=8, _) => (Kind::Flat, FLAT),
            (9..=11, _) => {
                let cheap = Cheap::any(rng);
                (Kind::Cheap(cheap), cheap.set())
            }
            _ => (Kind::Random, random(rng)),
        };
        self.kind = kind;
        self.set = Lent::of(&set);
    }
}

fn signed(rng: &mut Rng, magnitude: usize) -> i16 {
    let line = magnitude as i16;
    if rng.below(2) == 0 {
        line
    } else {
        -line
    }
}

// A number of 0..n, one time in four the first or the last.
fn number(rng: &mut Rng, n: usize) -> usize {
    match rng.below(8) {
        0 => 0,
        1 => n - 1,
        _ => rng.below(n),
    }
}

fn made(rng: &mut Rng, kind: Kind) -> Case {
    // as many nonzero lines as there can be
    let is_dense = rng.below(16) == 0;
    let (fs_ind, duration) = if is_dense { (4, 0) } else { (rng.below(5), rng.below(2)) };
    let len = match rng.below(8) {
        _ if is_dense => 300 + rng.below(101),
        0 => 20,
        1..=3 => 20 + rng.below(41),
        4 => [59, 60, 44, 45, 20 + 20 * fs_ind, 21 + 20 * fs_ind][rng.below(6)],
        5 => 380 + rng.below(21),
        _ => 20 + rng.below(381),
    };
    let ne = lines_of(fs_ind, duration);
    let pairs = match rng.below(8) {
        _ if is_dense => ne / 2,
        0 => 0,
        1 => 1 + rng.below(4),
        2..=3 => ne / 2,
        _ => 1 + rng.below(ne / 2),
    };
    let mut lines = vec![0; ne];
    match kind {
        _ if is_dense => lines.iter_mut().for_each(|line| *line = signed(rng, 1)),
        Kind::Cheap(cheap) if rng.below(8) != 0 => put_cheap(rng, &mut lines[..2 * pairs], cheap),
        _ => put_lines(rng, &mut lines[..2 * pairs]),
    }
    let mut side = any_side(rng, fs_ind);
    let lastnz = match rng.below(4) {
        0 => pairs.max(1) + rng.below(ne / 2 - pairs.max(1) + 1),
        _ => pairs.max(1),
    };
    side[LASTNZ] = 2 * lastnz as u32;
    let mut content = Content { side, orders: [0; 2], indices: [0; 16], lines, residual: Vec::new() };
    put_filters(rng, &mut content);
    Case { fs_ind, duration, len, content, spoilt: None }
}

// Every shape, with pitch and without.
fn any_side(rng: &mut Rng, fs_ind: usize) -> [u32; SIDE] {
    let (shape, pitch, is_first) = (rng.below(4), rng.below(2), |so: bool| so as usize);
    [
        number(rng, fs_ind + 1),
        2,
        is_first(rng.below(3) == 0),
        number(rng, 256),
        0,
        0,
        pitch,
        number(rng, 32),
        number(rng, 32),
        shape / 2,
        shape % 2,
        rng.below(GAIN_MOST[shape] as usize + 1),
        rng.below(2),
        number(rng, IDX_MOST[shape] as usize + 1),
        if shape == 0 { rng.below(2) } else { 0 },
        if shape == 0 { rng.below(6) } else { 0 },
        if pitch == 1 { rng.below(2) } else { 0 },
        if pitch == 1 { number(rng, 512) } else { 0 },
        number(rng, 8),
    ]
    .map(|n| n as u32)
}

fn put_filters(rng: &mut Rng, content: &mut Content) {
    for f in 0..if content.side[BANDWIDTH] < 3 { 1 } else { 2 } {
        let order = if rng.below(2) == 0 { 0 } else { number(rng, 9) };
        content.orders[f] = order;
        content.side[TNS + f] = (order != 0) as u32;
        content.indices[8 * f..8 * f + order].iter_mut().for_each(|index| *index = number(rng, 17));
    }
}

// Magnitudes up to a width, some of them 0, and the width as it is or falling from line to line.
fn put_lines(rng: &mut Rng, lines: &mut [i16]) {
    let widths = [1, 2, 2, 3, 3, 5, 8, 15];
    let (width, share, falls) = (widths[rng.below(8)], 1 + rng.below(4) * rng.below(4), rng.below(3) == 0);
    let count = lines.len();
    for (k, line) in lines.iter_mut().enumerate() {
        let width = if falls { width * (count - k) / count + 1 } else { width }.min(15);
        if rng.below(share) == 0 {
            let bits = rng.below(width + 1);
            let magnitude = rng.below(1 << bits);
            *line = signed(rng, magnitude);
        }
    }
    if count > 0 && rng.below(8) == 0 {
        lines[rng.below(count)] = [32_767, -32_767, 16_384, -8_192][rng.below(4)];
    }
}

// The cheap pair again and again; in some the first pair is another, or a few are.
fn put_cheap(rng: &mut Rng, lines: &mut [i16], cheap: Cheap) {
    lines.chunks_exact_mut(2).for_each(|pair| pair.copy_from_slice(&cheap.pair(rng)));
    let others = [0, 0, 0, 1, 1, 1, 2, 5][rng.below(8)];
    for at in 0..others.min(lines.len() / 2) {
        let place = if at == 0 { 0 } else { rng.below(lines.len() / 2) };
        let pair = [rng.below(8), rng.below(8)].map(|magnitude| signed(rng, magnitude));
        lines[2 * place..2 * place + 2].copy_from_slice(&pair);
    }
}

// A real frame's record with some lines, the mode or the length changed.
fn changed(rng: &mut Rng, cases: &[Case]) -> Case {
    let mut case = cases[rng.below(cases.len())].clone();
    let lastnz = case.content.lastnz();
    for _ in 0..[0, 1, 3, 20][rng.below(4)] {
        let line = &mut case.content.lines[rng.below(lastnz)];
        *line = match rng.below(4) {
            0 => 0,
            1 => line.saturating_mul(2).max(-32_767),
            2 => signed(rng, 1),
            _ => line.saturating_add(1),
        };
    }
    if rng.below(4) == 0 {
        case.content.side[LSB] ^= 1;
    }
    if rng.below(2) == 0 {
        case.len = (case.len + rng.below(9)).saturating_sub(4).clamp(20, 400);
    }
    case
}

// As it is; or cut so that it just has room, or just has none; or in a frame of about its bits.
fn fit(rng: &mut Rng, case: &mut Case) {
    let bits = |case: &Case| need(case).map_or(0, |need| need.bits());
    let mode = rng.below(8);
    if mode < 2 {
        return;
    }
    if mode < 4 {
        case.len = (bits(case) / 8 + rng.below(2)).clamp(20, 400);
        return;
    }
    let whole = case.content.clone();
    let mut cut = |pairs: usize| {
        case.content = whole.clone();
        case.content.lines[2 * pairs..].fill(0);
        case.content.side[LASTNZ] = 2 * pairs as u32;
        bits(case) <= case.bits()
    };
    let (mut has_room, mut has_none) = (1, whole.lastnz() / 2 + 1);
    while has_room + 1 < has_none {
        let middle = (has_room + has_none) / 2;
        if cut(middle) {
            has_room = middle;
        } else {
            has_none = middle;
        }
    }
    cut(if mode == 4 { has_none.min(whole.lastnz() / 2) } else { has_room });
}

// Of any length up to the count of nonzero lines; what is not 0 or 1 sends its lowest bit.
fn put_residual(rng: &mut Rng, content: &mut Content) {
    let most = content.nonzero();
    let count = match rng.below(4) {
        0 => rng.below(most + 1),
        1..=2 if most > 300 => rng.below(most + 1),
        1 => most.min(rng.below(4)),
        _ => most,
    };
    let is_wide = rng.below(16) == 0;
    content.residual = (0..count).map(|_| rng.next() as u8 & if is_wide { 0xff } else { 1 }).collect();
}

// Breaks 13, 14 or 15; some records break more than one.
fn spoil(rng: &mut Rng, case: &mut Case) {
    let kind = rng.below(8);
    if kind < 4 {
        spoil_field(rng, case);
    }
    let lastnz = case.content.lastnz();
    let ne = case.content.lines.len();
    if [3, 4, 5].contains(&kind) && (1..=ne).contains(&lastnz) {
        case.content.lines[rng.below(lastnz)] = i16::MIN;
    }
    if [5, 6].contains(&kind) && lastnz < ne {
        for _ in 0..=rng.below(2) {
            let place = lastnz + rng.below(ne - lastnz);
            let magnitude = 1 + rng.below(32_767);
            case.content.lines[place] = signed(rng, magnitude);
        }
    }
    if [2, 6, 7].contains(&kind) {
        let count = case.content.nonzero() + [1, 1, 2, 400][rng.below(4)];
        case.content.residual.resize(count, 1);
    }
}

// One field alone, put outside what it may be.
fn spoil_field(rng: &mut Rng, case: &mut Case) {
    let field = rng.below(FIELDS);
    let whole = case.content.clone();
    for _ in 0..100 {
        let value = match rng.below(4) {
            0 => [0, 1, 2, 3, 4, 5, 6, 8, 9, 17, 32, 256, 512, 81, 401][rng.below(15)],
            1 => [2_390_004, 15_158_272, 774_912, u32::MAX as usize][rng.below(4)],
            2 if field >= SIDE => [1 << 32, usize::MAX, 1 << 63][rng.below(3)],
            _ => rng.below(600),
        };
        case.content.set(field, value);
        if case.refused() == Some(Refused(13, 0)) {
            case.spoilt = Some(field);
            return;
        }
        case.content.clone_from(&whole);
    }
}
