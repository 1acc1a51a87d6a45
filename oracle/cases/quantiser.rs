// Cases of the quantiser: lines, each with its gain. The Rust quantises inside `quantize_spectrum`, by a gain that it
// makes of an index and an offset; or by any gain, which is lent to it in place of the power that it takes. Every line is
// the Rust's, and so is the aim.

use super::floats;
use crate::lc3::encoder::spectral_quantization::door;
use crate::lc3::num_traits::with_power;
use crate::records::{accepted, returned, Records, Rng};

// The index and the offset give 10 to the 28th part of their sum: below these ends it is 0, above them infinite.
const SUMS: std::ops::RangeInclusive<i16> = -1300..=1100;

// Where a whole number begins: the first, those beside a power of two, the last, and the first that 16 bits do not hold.
const WHOLE: [i32; 14] = [1, 2, 3, 4, 5, 127, 128, 1000, 16_383, 16_384, 32_765, 32_766, 32_767, 32_768];

#[derive(Default)]
pub struct Seen {
    own: usize,
    lent: usize,
    gains: usize,
    // results, and a line or a gain that is a NaN
    lowest: usize,
    highest: usize,
    zero: usize,
    nan: usize,
}

impl Seen {
    pub fn say(&self) {
        eprintln!(
            "oracle quantiser: {} lines at {} gains of the Rust's own, {} at gains that are lent; -32768: {}, 32767: {}, \
             0: {}; with a NaN: {}",
            self.own, self.gains, self.lent, self.lowest, self.highest, self.zero, self.nan
        );
    }
}

#[derive(Default)]
struct Lines {
    seen: Seen,
}

impl Lines {
    // A line is told by its sign and its magnitude.
    fn push(&mut self, out: &mut Records, x: f32, gain: f32, line: i16) {
        let numbers = [x, gain].map(|n| n.to_bits() as usize);
        out.put(81, (&numbers, &[]), &accepted(&[(line < 0) as usize, line.unsigned_abs() as usize]));
        self.seen.lowest += (line == i16::MIN) as usize;
        self.seen.highest += (line == i16::MAX) as usize;
        self.seen.zero += (line == 0) as usize;
        self.seen.nan += (x.is_nan() || gain.is_nan()) as usize;
    }

    // Lines at the gain that the Rust makes of an index and an offset.
    fn own(&mut self, out: &mut Records, (index, offset): (i16, i16), lines: impl FnOnce(f32) -> Vec<f32>) {
        let lines = lines(quantised(index, offset, &[0.0, 0.0]).0);
        // the Rust takes no empty list
        if lines.is_empty() {
            return;
        }
        let (gain, quantised_lines) = quantised(index, offset, &lines);
        self.seen.gains += 1;
        self.seen.own += lines.len();
        for (x, line) in lines.into_iter().zip(quantised_lines) {
            self.push(out, x, gain, line);
        }
    }

    // A line at a gain that is lent.
    fn lent(&mut self, out: &mut Records, x: f32, gain: f32) {
        self.seen.lent += 1;
        self.push(out, x, gain, by_gain(x, gain));
    }
}

// The gain that the Rust uses, and the lines as it quantises them.
fn quantised(index: i16, offset: i16, lines: &[f32]) -> (f32, Vec<i16>) {
    let mut x_f = lines.to_vec();
    // it takes them by pairs
    x_f.resize(lines.len() + lines.len() % 2, 0.0);
    let mut x_q = vec![0; x_f.len()];
    // no sum passes this target, so no line is cleared
    let call = || door::quantise(0, &x_f, &mut x_q, 160, [offset, index], usize::MAX);
    let gain = returned(call, || format!("{:?} {} {}", lines, index, offset));
    x_q.truncate(lines.len());
    (gain, x_q)
}

fn by_gain(x: f32, gain: f32) -> i16 {
    let (used, lines) = with_power(gain, || quantised(0, 0, &[x]));
    assert!(used.to_bits() == gain.to_bits(), "the Rust takes another gain than the one that is lent to it");
    lines[0]
}

// The lines beside the place where a whole number begins, of both signs; none where no line reaches it.
fn beside(gain: f32, whole: i32) -> Vec<f32> {
    // by lines below 0, since at a gain above 0 these reach 32768 too
    let reaches = |bits: u32| by_gain(-f32::from_bits(bits), gain).unsigned_abs() as i32 >= whole;
    let last = floats::apart(0, f32::MAX.to_bits(), reaches);
    let around = last.into_iter().flat_map(|last| last.saturating_sub(1)..=last + 2);
    around.flat_map(|bits| [bits, bits | 0x8000_0000]).map(f32::from_bits).collect()
}

// The offsets that the source comes to, over all configurations and frame lengths.
pub fn own_offsets() -> Vec<i16> {
    let mut all: Vec<i16> = (0..=4)
        .flat_map(|fs_ind| (20..=400).map(move |bytes| (fs_ind, 8 * bytes)))
        .map(|(fs_ind, nbits): (i16, i16)| -(115.min(nbits / (10 * (fs_ind + 1)))) - 105 - 5 * (fs_ind + 1))
        .collect();
    all.sort();
    all.dedup();
    all
}

// An index and an offset of a sum.
fn of_sum(sum: i16) -> (i16, i16) {
    let index = sum.rem_euclid(256);
    (index, sum - index)
}

fn random_gain(rng: &mut Rng) -> f32 {
    match rng.below(8) {
        0 => floats::any(rng),
        1 => floats::special(rng),
        2 => floats::between(rng, -2.0, 2.0),
        3 => f32::from_bits(rng.below(0x0100_0000) as u32),
        _ => 10f32.powf(floats::between(rng, -10.0, 8.0)),
    }
}

// At each gain of the Rust's own some lines beside every kind of edge; at each index and own offset lines beside one;
// every special line at every special gain.
fn systematic(lines: &mut Lines, rng: &mut Rng, out: &mut Records) {
    for sum in SUMS {
        lines.own(out, of_sum(sum), |gain| {
            let mut all: Vec<f32> = WHOLE.into_iter().flat_map(|whole| beside(gain, whole)).collect();
            all.extend((0..8).map(|_| floats::special(rng)));
            all
        });
    }
    for offset in own_offsets() {
        for index in 0..=255 {
            lines.own(out, (index, offset), |gain| beside(gain, 1 + rng.below(32_768) as i32));
        }
    }
    for gain in floats::specials() {
        floats::specials().into_iter().for_each(|x| lines.lent(out, x, gain));
        for whole in WHOLE {
            beside(gain, whole).into_iter().for_each(|x| lines.lent(out, x, gain));
        }
    }
}

// Any bits at any gain, and at the Rust's; or beside an edge of any gain.
fn random(lines: &mut Lines, rng: &mut Rng, out: &mut Records) {
    match rng.below(4) {
        0 => {
            let sum = SUMS.start() + rng.below(SUMS.len()) as i16;
            lines.own(out, of_sum(sum), |_| (0..8).map(|_| floats::any(rng)).collect())
        }
        1 => {
            let gain = random_gain(rng);
            (0..8).for_each(|_| lines.lent(out, floats::any(rng), gain));
        }
        2 => {
            let gain = random_gain(rng);
            (0..8).for_each(|_| lines.lent(out, floats::between(rng, -40_000.0, 40_000.0) * gain, gain));
        }
        _ => {
            let (gain, whole) = (random_gain(rng), 1 + rng.below(32_768) as i32);
            beside(gain, whole).into_iter().for_each(|x| lines.lent(out, x, gain));
        }
    }
}

// About so many random lines, beside the systematic ones.
pub fn run(out: &mut Records, rng: &mut Rng, count: usize) -> Seen {
    let mut lines = Lines::default();
    systematic(&mut lines, rng, out);
    for _ in 0..count / 8 {
        random(&mut lines, rng, out);
    }
    lines.seen
}

// Some gains of the Rust's own, with one edge at each; special lines at special gains; random ones. A case has its gain,
// so it stays right where another machine's power of 10 is another.
pub fn sample(out: &mut Records, rng: &mut Rng) -> Seen {
    let mut lines = Lines::default();
    for (i, sum) in (-1260..=1080).step_by(60).enumerate() {
        lines.own(out, of_sum(sum), |gain| beside(gain, WHOLE[i % WHOLE.len()]));
    }
    for whole in WHOLE {
        beside(1.0, whole).into_iter().for_each(|x| lines.lent(out, x, 1.0));
    }
    for x in floats::specials() {
        for _ in 0..6 {
            lines.lent(out, x, floats::special(rng));
        }
    }
    for _ in 0..60 {
        random(&mut lines, rng, out);
    }
    lines.seen
}
