// Cases of the bit estimate: a table set, and estimates by it. Every answer is the Rust's. By document 01 its ceiling, in
// single precision, is compared up to a sum of 16,777,216. Past that the flags, lastnz and the least bits are still the
// Rust's, and the three numbers that ceilings decide are document 01's: exact ceilings of the sums below. These sums also
// aim the targets, and up to that limit are held to the Rust's.

use super::recording::field;
use super::rows;
use super::side_info::Config;
use crate::lc3::encoder::spectral_quantization::door::{self, Estimate};
use crate::records::{accepted, returned, search, stop, Records, Rng};
use crate::tables::{self, Set, FLAT, WIDE};

// the bytes of the five tables
const SIZES: [usize; 5] = [4096, 2 * 64 * WIDE, 2 * 64 * WIDE, 2 * 2 * tables::ORDERS, 2 * 8 * WIDE];
// costs are in 2,048ths of a bit
const UNIT: u64 = 2048;
const COMPARED: u64 = 16_777_216;

struct Frame {
    of: Config,
    bytes: usize,
    lines: Vec<i16>,
}

#[derive(Default)]
pub struct Seen {
    // times that a table set was put in force
    turns: usize,
    estimates: usize,
    configs: std::collections::BTreeSet<(Config, bool, bool)>,
    // estimates where lines are cut off, and where the sum is a whole number of bits
    cut: usize,
    whole: usize,
    escapes: usize,
    largest: u64,
    // with a sum past the limit; of these where the Rust's ceiling is not the exact one, and the smallest such sum
    over: usize,
    parted: usize,
    first_parted: Option<(u64, usize, u64)>,
}

impl Seen {
    pub fn say(&self) {
        eprintln!(
            "oracle estimate: {} estimates, by {} turns of a table set, in {} kinds of configuration, rate flag and mode \
             flag; with lines cut off: {}, with escapes: {}, with a sum of whole bits: {}; largest sum: {}",
            self.estimates,
            self.turns,
            self.configs.len(),
            self.cut,
            self.escapes,
            self.whole,
            self.largest
        );
        eprintln!(
            "oracle estimate: with a sum over {}, so that ceilings are exact ones: {}; of these the Rust's is not the \
             exact one in {}{}",
            COMPARED,
            self.over,
            self.parted,
            self.first_parted.map_or(String::new(), |(sum, rust, exact)| format!(
                ", the smallest with a sum of {}: {} bits, exactly {}",
                sum, rust, exact
            ))
        );
    }
}

// The source's sum behind each pair, without the ceilings.
fn sums(set: &Set, frame: &Frame) -> Vec<u64> {
    let (ne, fs_ind, nbits, x_q) = (frame.of.ne(), frame.of.fs_ind, 8 * frame.bytes, &frame.lines);
    let rate_flag = if nbits > 160 + fs_ind * 160 { 512 } else { 0 };
    let mode_flag = nbits >= 480 + fs_ind * 160;
    let mut lastnz = ne;
    while lastnz > 2 && x_q[lastnz - 1] == 0 && x_q[lastnz - 2] == 0 {
        lastnz -= 2;
    }
    let (mut all, mut sum, mut c) = (Vec::new(), 0, 0);
    for n in (0..lastnz).step_by(2) {
        let start = c + rate_flag + if n > ne / 2 { 256 } else { 0 };
        let (mut a, mut b) = (x_q[n].unsigned_abs(), x_q[n + 1].unsigned_abs());
        sum += [a, b].iter().filter(|m| **m > 0).count() as u64 * UNIT;
        let mut level = 0;
        let mut escaped = false;
        let cost = |level: usize, symbol: usize| set.bits[set.lookup[start + level * 1024] as usize][symbol] as u64;
        while a.max(b) >= 4 {
            sum += cost(level, 16) + if mode_flag && !escaped { 0 } else { 2 * UNIT };
            (a, b, escaped, level) = (a >> 1, b >> 1, true, 3.min(level + 1));
        }
        sum += cost(level, (a + 4 * b) as usize);
        all.push(sum);
        let t = if level <= 1 { 1 + (a + b) as usize * (level + 1) } else { 12 + level };
        c = (c & 15) * 16 + t;
    }
    all
}

fn bits(sum: u64) -> u64 {
    (sum + UNIT - 1) / UNIT
}

// By exact ceilings: where lines are cut off, the bits of all lines with the least bits, and those of the lines kept.
fn with_ceilings(frame: &Frame, sums: &[u64], target: usize, nbits_lsb: usize) -> [usize; 3] {
    let pairs = frame.lines.chunks(2).zip(sums).enumerate();
    let fitting = pairs.filter(|(_, (pair, sum))| pair.iter().any(|line| *line != 0) && bits(**sum) <= target as u64);
    let (lastnz_trunc, kept) = fitting.last().map_or((2, 0), |(n, (_, sum))| (2 * n + 2, *sum));
    [lastnz_trunc, bits(*sums.last().unwrap()) as usize + nbits_lsb, bits(kept) as usize]
}

// ---- records

// The tables as they are lent, one behind the other.
fn lent(set: &Set) -> Vec<u8> {
    let words = |all: &mut dyn Iterator<Item = u16>| all.flat_map(u16::to_be_bytes).collect();
    let tables: [Vec<u8>; 5] = [
        set.lookup.to_vec(),
        words(&mut set.spectral.iter().flatten().map(|n| *n as u16)),
        words(&mut set.bits.iter().flatten().copied()),
        words(&mut set.order.iter().flatten().map(|n| *n as u16)),
        words(&mut set.coef.iter().flatten().map(|n| *n as u16)),
    ];
    tables.concat()
}

// Estimates by one set.
struct Estimates<'a> {
    set: &'a Set,
    seen: &'a mut Seen,
}

impl<'a> Estimates<'a> {
    fn by(out: &mut Records, set: &'a Set, seen: &'a mut Seen) -> Self {
        tables::lend(set);
        out.lend(&lent(set));
        seen.turns += 1;
        Estimates { set, seen }
    }

    fn push(&mut self, out: &mut Records, frame: &Frame, target: usize) {
        let Config { fs_ind, duration } = frame.of;
        let mut lines = frame.lines.clone();
        let call = || door::estimate(frame.of.ne(), fs_ind, &mut lines, 8 * frame.bytes, target);
        let b = returned(call, || format!("{:?} {} bytes, target {}", frame.lines, frame.bytes, target));
        if lines != frame.lines {
            stop(&format!("the estimate alters its lines: {:?}", frame.lines));
        }
        let sums = sums(self.set, frame);
        let (sum, rust) = (*sums.last().unwrap(), [b.lastnz_trunc, b.nbits_est, b.nbits_trunc]);
        let exact = with_ceilings(frame, &sums, target, b.nbits_lsb);
        if sum <= COMPARED && rust != exact {
            stop(&format!("the estimate is {:?}, by its sums {:?}: {:?}", rust, exact, frame.lines));
        }
        self.saw(frame, &b, sum);
        let bytes: Vec<u8> = frame.lines.iter().flat_map(|line| line.to_be_bytes()).collect();
        let [lastnz_trunc, nbits_est, nbits_trunc] = exact;
        let answer = [b.rate_flag, b.mode_flag as usize, b.lastnz, lastnz_trunc, nbits_est, nbits_trunc, b.nbits_lsb];
        out.put(83, (&[frame.bytes, target, fs_ind, duration], &bytes), &accepted(&answer));
    }

    fn saw(&mut self, frame: &Frame, b: &Estimate, sum: u64) {
        let seen = &mut self.seen;
        seen.estimates += 1;
        seen.configs.insert((frame.of, b.rate_flag > 0, b.mode_flag));
        seen.cut += (b.lastnz_trunc < b.lastnz) as usize;
        seen.whole += (sum % UNIT == 0) as usize;
        seen.escapes += frame.lines.iter().any(|line| line.unsigned_abs() >= 4) as usize;
        seen.largest = seen.largest.max(sum);
        let (rust, exact) = (b.nbits_est - b.nbits_lsb, bits(sum));
        seen.over += (sum > COMPARED) as usize;
        if rust as u64 != exact {
            seen.parted += 1;
            if seen.first_parted.map_or(true, |(least, ..)| sum < least) {
                seen.first_parted = Some((sum, rust, exact));
            }
        }
    }

    // A frame at targets at each side of what some of its pairs come to, at the ends, and at any.
    fn push_targets(&mut self, out: &mut Records, rng: &mut Rng, frame: &Frame, count: usize) {
        let sums = sums(self.set, frame);
        let mut targets = vec![0, 65_535, rng.below(3300)];
        for _ in 0..count {
            let at = bits(sums[rng.below(sums.len())]) as usize;
            targets.extend([at.saturating_sub(1), at]);
        }
        let whole = bits(*sums.last().unwrap()) as usize;
        targets.extend([whole.saturating_sub(1), whole]);
        for target in targets {
            self.push(out, frame, target.min(65_535));
        }
    }
}

// ---- table sets

// The bits of a set: any; whole bits; whole bits and what is beside them, so that sums are; as they may be of a coder.
fn some_bits(rng: &mut Rng, how: usize) -> [[u16; WIDE]; 64] {
    let one = |rng: &mut Rng| match how {
        0 => rng.next() as u16,
        1 => (rng.below(32) * UNIT as usize) as u16,
        2 => (2048 * (1 + rng.below(31)) + [0, 1, 1, 1, 2][rng.below(5)] - 1) as u16,
        _ => (rng.below(20_480) + 100) as u16,
    };
    std::array::from_fn(|_| std::array::from_fn(|_| one(rng)))
}

// A set that passes: any lookup, rows of any kind, and bits.
fn some_set(rng: &mut Rng, bits: [[u16; WIDE]; 64]) -> Set {
    let mut set = Set { bits, ..FLAT };
    set.lookup = std::array::from_fn(|_| rng.below(64) as u8);
    fn row<const N: usize>(rng: &mut Rng) -> [i16; N] {
        rows::any(rng, N).frequency.try_into().expect("a row of another length")
    }
    set.spectral = std::array::from_fn(|_| row(rng));
    set.order = std::array::from_fn(|_| row(rng));
    set.coef = std::array::from_fn(|_| row(rng));
    set
}

fn random_set(rng: &mut Rng) -> Set {
    let bits = match rng.below(8) {
        0 => [[0; WIDE]; 64],
        1 => [[u16::MAX; WIDE]; 64],
        how => some_bits(rng, how % 4),
    };
    some_set(rng, bits)
}

// The standard's own tables, from where the recordings stand.
fn standard() -> Option<Set> {
    let folder = std::env::var("LC3_RECORDINGS").ok().filter(|folder| !folder.is_empty())?;
    let content = std::fs::read(format!("{}/tables.bin", folder)).ok()?;
    let (mut tables, mut at) = (Vec::new(), 0);
    while at < content.len() {
        let (tag, table) = field(&content[at..])?;
        (tag as usize == 0x10 + tables.len()).then_some(())?;
        tables.push(table.to_vec());
        at += 3 + table.len();
    }
    let all: [Vec<u8>; 5] = tables.try_into().ok()?;
    all.iter().map(Vec::len).eq(SIZES).then_some(())?;
    let word = |part: usize, at: usize| u16::from_be_bytes([all[part][2 * at], all[part][2 * at + 1]]);
    Some(Set {
        lookup: std::array::from_fn(|i| all[0][i]),
        spectral: std::array::from_fn(|r| std::array::from_fn(|k| word(1, WIDE * r + k) as i16)),
        bits: std::array::from_fn(|r| std::array::from_fn(|k| word(2, WIDE * r + k))),
        order: std::array::from_fn(|r| std::array::from_fn(|k| word(3, tables::ORDERS * r + k) as i16)),
        coef: std::array::from_fn(|r| std::array::from_fn(|k| word(4, WIDE * r + k) as i16)),
    })
}

// ---- frames

// The shortest and the longest, and those at either side of where a flag is set.
fn lengths(fs_ind: usize) -> [usize; 6] {
    let (rate, mode) = (20 + 20 * fs_ind, 60 + 20 * fs_ind);
    [20, rate, rate + 1, mode - 1, mode, 400]
}

#[derive(Clone, Copy)]
enum Kind {
    Zero,
    // at most 1, at most 3, at most 7, any number of bits to a line, any, the largest
    Ones,
    Small,
    Escaped,
    Scaled,
    Any,
    Largest,
    // few lines, and at most two
    Sparse,
    Two,
    // louder at the front, as a sound's are
    Sound,
}

const KINDS: [Kind; 10] = [
    Kind::Zero,
    Kind::Ones,
    Kind::Small,
    Kind::Escaped,
    Kind::Scaled,
    Kind::Any,
    Kind::Largest,
    Kind::Sparse,
    Kind::Two,
    Kind::Sound,
];

fn up_to(rng: &mut Rng, most: usize) -> i16 {
    (rng.below(2 * most + 1) as i32 - most as i32) as i16
}

fn scaled(rng: &mut Rng) -> i16 {
    let bits = rng.below(16);
    (rng.next() as i16) >> bits
}

fn lines(rng: &mut Rng, kind: Kind, ne: usize) -> Vec<i16> {
    let one = |rng: &mut Rng, k: usize| match kind {
        Kind::Zero | Kind::Two => 0,
        Kind::Ones => up_to(rng, 1),
        Kind::Small => up_to(rng, 3),
        Kind::Escaped => up_to(rng, 7),
        Kind::Scaled => scaled(rng),
        Kind::Any => rng.next() as i16,
        Kind::Largest => [-32_768, -32_767, 32_767][rng.below(3)],
        Kind::Sparse => [0, 0, 0, 0, 0, 0, 1, -1][rng.below(8)] * up_to(rng, 40),
        Kind::Sound => up_to(rng, 400 / (k + 4)),
    };
    let mut all: Vec<i16> = (0..ne).map(|k| one(rng, k)).collect();
    if let Kind::Two = kind {
        for _ in 0..2 {
            all[rng.below(ne)] = scaled(rng);
        }
    }
    // pairs of zeros at the end, at times all behind the first
    if rng.below(3) == 0 {
        let from = [0, 1, 2, rng.below(ne)][rng.below(4)];
        all[from..].fill(0);
    }
    all
}

fn random_frame(rng: &mut Rng) -> Frame {
    let of = Config { fs_ind: rng.below(5), duration: rng.below(2) };
    let bytes = match rng.below(3) {
        0 => lengths(of.fs_ind)[rng.below(6)],
        _ => 20 + rng.below(381),
    };
    let kind = KINDS[rng.below(KINDS.len())];
    Frame { of, bytes, lines: lines(rng, kind, of.ne()) }
}

// ---- at the largest sum that is compared

// The symbol that a pair ends in.
fn symbol(pair: &[i16]) -> u16 {
    let (mut a, mut b) = (pair[0].unsigned_abs(), pair[1].unsigned_abs());
    while a.max(b) >= 4 {
        (a, b) = (a >> 1, b >> 1);
    }
    a + 4 * b
}

// A set and a frame of it whose sum is just so. All bits are alike, but for symbol 15, which one pair has.
fn with_sum(rng: &mut Rng, sum: u64) -> Option<(Set, Frame)> {
    let of = Config { fs_ind: rng.below(5), duration: rng.below(2) };
    let mut frame = Frame { of, bytes: 20 + rng.below(381), lines: lines(rng, Kind::Scaled, of.ne()) };
    // one half of a pair that ends in symbol 15 is cleared, so that no pair does but one
    frame.lines.chunks_mut(2).filter(|pair| symbol(pair) == 15).for_each(|pair| pair[0] = 0);
    let pair = 2 * rng.below(of.ne() / 2);
    frame.lines[pair..pair + 2].fill(3);
    let mut set = some_set(rng, [[0; WIDE]; 64]);
    let fixed = *sums(&set, &frame).last().unwrap();
    set.bits = [[1; WIDE]; 64];
    let entries = *sums(&set, &frame).last().unwrap() - fixed;
    let alike = sum.checked_sub(fixed)? / entries;
    (alike + entries < 65_536).then_some(())?;
    set.bits = [[alike as u16; WIDE]; 64];
    let rest = sum - *sums(&set, &frame).last().unwrap();
    set.bits.iter_mut().for_each(|row| row[15] += rest as u16);
    assert_eq!(sums(&set, &frame).last(), Some(&sum), "the frame has another sum");
    Some((set, frame))
}

fn put_largest(out: &mut Records, seen: &mut Seen, rng: &mut Rng, sum: u64) {
    let (set, frame) = search("a frame with a sum", || with_sum(rng, sum));
    let mut estimates = Estimates::by(out, &set, seen);
    for target in [8191, 8192, 8193, 65_535] {
        estimates.push(out, &frame, target);
    }
}

// ---- runs

// Every configuration, at each side of both flags, with lines of every kind.
fn systematic(out: &mut Records, rng: &mut Rng, set: &Set, seen: &mut Seen) {
    let mut estimates = Estimates::by(out, set, seen);
    for of in Config::all() {
        for bytes in lengths(of.fs_ind) {
            for kind in KINDS {
                let frame = Frame { of, bytes, lines: lines(rng, kind, of.ne()) };
                estimates.push_targets(out, rng, &frame, 1);
            }
        }
    }
}

// About so many random estimates, beside the systematic ones.
pub fn run(out: &mut Records, rng: &mut Rng, count: usize) -> Seen {
    let mut seen = Seen::default();
    let mut sets = vec![FLAT];
    match standard() {
        Some(set) => sets.push(set),
        None => {
            eprintln!("oracle estimate: the standard's tables are not at hand (LC3_RECORDINGS), so they are left out")
        }
    }
    let own = sets.len();
    sets.extend((0..4).map(|how| {
        let bits = some_bits(rng, how);
        some_set(rng, bits)
    }));
    sets.iter().for_each(|set| systematic(out, rng, set, &mut seen));
    for sum in COMPARED - 4..=COMPARED + 6 {
        (0..4).for_each(|_| put_largest(out, &mut seen, rng, sum));
    }
    for i in 0..count / 100 {
        let set = match i % 4 {
            0 => sets[i / 4 % own].clone(),
            _ => random_set(rng),
        };
        let mut estimates = Estimates::by(out, &set, &mut seen);
        for _ in 0..12 {
            let frame = random_frame(rng);
            estimates.push_targets(out, rng, &frame, 2);
        }
    }
    tables::lend(&FLAT);
    seen
}

// A short frame of each kind by the flat set, by one with sums of whole bits and by any; the largest sum that is compared
// whole, and larger ones.
pub fn sample(out: &mut Records, rng: &mut Rng) -> Seen {
    let mut seen = Seen::default();
    let (whole, any) = (some_bits(rng, 1), some_bits(rng, 0));
    for set in [FLAT, some_set(rng, whole), some_set(rng, any)] {
        let mut estimates = Estimates::by(out, &set, &mut seen);
        for (i, kind) in KINDS.into_iter().enumerate() {
            let of = Config { fs_ind: i / 6, duration: i % 2 };
            let frame = Frame { of, bytes: lengths(of.fs_ind)[i % 6], lines: lines(rng, kind, of.ne()) };
            estimates.push_targets(out, rng, &frame, 0);
        }
    }
    for sum in [COMPARED, COMPARED + 1, COMPARED + 300_000] {
        put_largest(out, &mut seen, rng, sum);
    }
    tables::lend(&FLAT);
    seen
}
