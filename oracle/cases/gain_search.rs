// Cases of the gain search: energies, and searches over them, each by an offset and a target. The aim below only chooses
// them; every answer is the Rust's.

use super::floats;
use super::quantiser::own_offsets;
use crate::lc3::encoder::spectral_quantization::door;
use crate::records::{accepted, returned, Records, Rng};

// the most energies that a frame has
const ENERGIES: usize = 100;
// the targets of the source are 16-bit numbers
const TARGETS: usize = 65_536;

pub struct Seen {
    searches: usize,
    indices: [usize; 256],
    lengths: [usize; ENERGIES + 1],
    edges: usize,
}

impl Seen {
    fn new() -> Self {
        Seen { searches: 0, indices: [0; 256], lengths: [0; ENERGIES + 1], edges: 0 }
    }

    pub fn say(&self) {
        let met = |counts: &[usize]| counts.iter().filter(|n| **n > 0).count();
        eprintln!(
            "oracle gain search: {} searches; indices met: {} of 256, 0 of them {} times, 255 {} times; lengths met: {} \
             of 101; energies and targets beside which the index changes: {}",
            self.searches,
            met(&self.indices),
            self.indices[0],
            self.indices[255],
            met(&self.lengths),
            self.edges
        );
    }
}

fn search(energies: &[f32], (offset, target): (i16, usize)) -> i16 {
    returned(|| door::gain(energies, offset, target), || format!("{:?} {} {}", energies, offset, target))
}

fn put(out: &mut Records, seen: &mut Seen, energies: &[f32], list: &[(i16, usize)]) {
    let bytes: Vec<u8> = energies.iter().flat_map(|e| e.to_bits().to_be_bytes()).collect();
    out.lend(&bytes);
    for (offset, target) in list {
        let index = search(energies, (*offset, *target)) as usize;
        seen.indices[index] += 1;
        out.put(82, (&[*offset as u16 as usize, *target], &[]), &accepted(&[index]));
    }
    seen.searches += list.len();
    seen.lengths[energies.len()] += 1;
}

// ---- what a search is made of

fn offset(rng: &mut Rng, own: &[i16]) -> i16 {
    match rng.below(8) {
        0 => rng.next() as i16,
        1 => rng.below(600) as i16 - 400,
        _ => own[rng.below(own.len())],
    }
}

fn target(rng: &mut Rng) -> usize {
    match rng.below(8) {
        0 => [0, 1, 2, 3199, 3200, 32_767, 32_768, TARGETS - 2, TARGETS - 1][rng.below(9)],
        1 => rng.below(TARGETS),
        _ => rng.below(3300),
    }
}

// The energies of a sound are logarithms, from about -70 to 100.
#[derive(Clone, Copy)]
enum Kind {
    Sound,
    Loud,
    Silent,
    Huge,
    Tiny,
    Special,
    Any,
    Mixed,
}

const KINDS: [Kind; 8] =
    [Kind::Sound, Kind::Loud, Kind::Silent, Kind::Huge, Kind::Tiny, Kind::Special, Kind::Any, Kind::Mixed];

fn energy(rng: &mut Rng, kind: Kind) -> f32 {
    match kind {
        Kind::Sound => floats::between(rng, -70.0, 100.0),
        Kind::Loud => floats::between(rng, 60.0, 400.0),
        // what the source makes of no sound at all
        Kind::Silent => 10.0 * f32::EPSILON.log10(),
        Kind::Huge => floats::between(rng, -1.0, 1.0) * [1e5, 1e20, 1e38][rng.below(3)],
        Kind::Tiny => floats::between(rng, -1.0, 1.0) * [1e-3, 1e-30, 1e-40][rng.below(3)],
        Kind::Special => floats::special(rng),
        Kind::Any => floats::any(rng),
        Kind::Mixed => {
            let kind = KINDS[rng.below(KINDS.len() - 1)];
            energy(rng, kind)
        }
    }
}

fn energies(rng: &mut Rng, kind: Kind, len: usize) -> Vec<f32> {
    (0..len).map(|_| energy(rng, kind)).collect()
}

// Half of them a sound's, since few others come to an index between the ends.
fn kind(rng: &mut Rng) -> Kind {
    match rng.below(2) {
        0 => Kind::Sound,
        _ => KINDS[rng.below(KINDS.len())],
    }
}

fn length(rng: &mut Rng) -> usize {
    match rng.below(4) {
        0 => rng.below(4),
        // the lengths of the configurations
        1 => [15, 20, 30, 40, 45, 60, 75, 80, 100][rng.below(9)],
        _ => rng.below(ENERGIES + 1),
    }
}

// ---- aims

// Targets that stand beside each other and have other indices.
fn target_edge(rng: &mut Rng, energies: &[f32], offset: i16) -> Option<usize> {
    let most = [40, 400, 4000, TARGETS][rng.below(4)];
    let (from, to) = (rng.below(most / 2), most / 2 + rng.below(most / 2));
    floats::apart(from as u32, to as u32, |target| search(energies, (offset, target as usize))).map(|at| at as usize)
}

// The two energies, at one place of the list, that stand beside each other and have other indices.
fn energy_edge(rng: &mut Rng, energies: &[f32], at: usize, of: (i16, usize)) -> Option<[f32; 2]> {
    let (from, to) = (floats::between(rng, -200.0, 20.0), floats::between(rng, 20.0, 400.0));
    let with = |place: u32| {
        let mut changed = energies.to_vec();
        changed[at] = floats::at_place(place);
        changed
    };
    floats::apart(floats::place(from), floats::place(to), |place| search(&with(place), of))
        .map(|place| [place, place + 1].map(floats::at_place))
}

// Around the edges of one list of energies: targets, by some offsets; and the energy at some place.
fn put_edges(out: &mut Records, seen: &mut Seen, rng: &mut Rng, own: &[i16], list: &[f32]) {
    let mut searches = Vec::new();
    for _ in 0..8 {
        let offset = offset(rng, own);
        if let Some(last) = target_edge(rng, list, offset) {
            seen.edges += 1;
            searches.extend((last.saturating_sub(1)..=(last + 2).min(TARGETS - 1)).map(|target| (offset, target)));
        }
    }
    put(out, seen, list, &searches);
    if list.is_empty() {
        return;
    }
    for _ in 0..2 {
        let (at, of) = (rng.below(list.len()), (offset(rng, own), target(rng)));
        if let Some(sides) = energy_edge(rng, list, at, of) {
            seen.edges += 1;
            for energy in sides {
                let mut changed = list.to_vec();
                changed[at] = energy;
                put(out, seen, &changed, &[of]);
            }
        }
    }
}

// An energy that the first turn finds just at its level, and those beside it, alone and before a louder one; by the
// targets that its cost is about.
fn put_level(out: &mut Records, seen: &mut Seen, rng: &mut Rng, fives: i16) {
    // 5 times a number is exactly 7 times it in the level's scale; the first turn has the index 127
    let (energy, offset) = (5.0 * fives as f32, 7 * fives - 127);
    let searches: Vec<(i16, usize)> = (0..8).map(|target| (offset, target)).collect();
    for step in 0..=2 {
        let energy = floats::at_place(floats::place(energy) - 1 + step);
        put(out, seen, &[energy], &searches);
        put(out, seen, &[energy, energy + floats::between(rng, 0.0, 5.0)], &searches);
    }
}

// Energies that the first turn finds exactly 43 above its level, in the level's scale, and whose two costs, one number but
// for rounding, are some ulps apart. Behind each stands an energy that brings the sum of both beside a target; the Rust's
// own answers find it, by the half of the indices that its first turn decides for.
fn put_above(out: &mut Records, seen: &mut Seen, rng: &mut Rng, offsets: impl Iterator<Item = i16>) {
    for offset in offsets {
        let level = 127.0 + offset as f32;
        let first = floats::place((level + 43.0 * 1.4) / 1.4);
        for energy in (first - 4..=first + 4).map(floats::at_place) {
            let scaled = energy * 28.0 / 20.0;
            let costs = [2.0 * scaled - 2.0 * level - 36.0 * 28.0 / 20.0, scaled - level + 7.0 * 28.0 / 20.0];
            if scaled - 43.0 * 28.0 / 20.0 != level || costs[0] == costs[1] {
                continue;
            }
            let of = (offset, 41 + rng.below(20));
            let list = |place: u32| [energy, floats::at_place(place)];
            let ends = [(level - 1.0) / 1.4, (level + 43.0) / 1.4].map(floats::place);
            if let Some(last) = floats::apart(ends[0], ends[1], |place| search(&list(place), of) > 127) {
                seen.edges += 1;
                (last - 1..=last + 2).for_each(|place| put(out, seen, &list(place), &[of]));
            }
        }
    }
}

// Offsets at the ends of 16 bits, at energies about the levels that they have, alone and before another.
fn put_ends(out: &mut Records, seen: &mut Seen, rng: &mut Rng, each: usize) {
    for offset in [i16::MIN, i16::MIN + 1, i16::MIN + 300, i16::MAX - 300, i16::MAX - 127, i16::MAX - 1, i16::MAX] {
        for _ in 0..each {
            let mut near = || (offset as f32 + floats::between(rng, -60.0, 320.0)) / 1.4;
            let list = [near(), near()];
            let searches: Vec<(i16, usize)> = (0..10).map(|i| (offset, 20 * i + rng.below(20))).collect();
            put(out, seen, &list[..1], &searches);
            put(out, seen, &list, &searches);
        }
    }
}

// Every offset, at a list of energies.
fn put_offsets(out: &mut Records, seen: &mut Seen, rng: &mut Rng, list: &[f32]) {
    let searches: Vec<(i16, usize)> = (i16::MIN..=i16::MAX).map(|offset| (offset, target(rng))).collect();
    put(out, seen, list, &searches);
}

// Searches by any offsets and targets, at a list of energies.
fn put_some(out: &mut Records, seen: &mut Seen, rng: &mut Rng, own: &[i16], list: &[f32], count: usize) {
    let searches: Vec<(i16, usize)> = (0..count).map(|_| (offset(rng, own), target(rng))).collect();
    put(out, seen, list, &searches);
}

// Every offset at short lists; every length with every kind of energies; energies at a level, 43 above it, and at the ends
// of the offsets; any two specials.
fn systematic(out: &mut Records, seen: &mut Seen, rng: &mut Rng, own: &[i16]) {
    for (kind, len) in [(Kind::Sound, 1), (Kind::Sound, 7), (Kind::Mixed, 4)] {
        let list = energies(rng, kind, len);
        put_offsets(out, seen, rng, &list);
    }
    for len in 0..=ENERGIES {
        for kind in KINDS {
            let list = energies(rng, kind, len);
            put_some(out, seen, rng, own, &list, 10);
        }
    }
    for fives in -14..=80 {
        put_level(out, seen, rng, fives);
    }
    put_above(out, seen, rng, -1000..1000);
    put_ends(out, seen, rng, 20);
    for first in floats::specials() {
        put_some(out, seen, rng, own, &[first], 4);
        for second in floats::specials() {
            put_some(out, seen, rng, own, &[first, second], 2);
        }
    }
}

// About so many random searches, half of them beside an edge, and the systematic ones.
pub fn run(out: &mut Records, rng: &mut Rng, count: usize) -> Seen {
    let (mut seen, own) = (Seen::new(), own_offsets());
    systematic(out, &mut seen, rng, &own);
    for _ in 0..count / 40 {
        let (kind, len) = (kind(rng), length(rng));
        let list = energies(rng, kind, len);
        put_some(out, &mut seen, rng, &own, &list, 20);
        let kind = [Kind::Sound, Kind::Loud][rng.below(2)];
        let list = energies(rng, kind, len.max(1));
        put_edges(out, &mut seen, rng, &own, &list);
    }
    seen
}

// No energies, and the most; some of each kind; edges and levels; the ends of the offsets; special ones by two.
pub fn sample(out: &mut Records, rng: &mut Rng) -> Seen {
    let (mut seen, own) = (Seen::new(), own_offsets());
    for (i, kind) in KINDS.into_iter().enumerate() {
        for len in [i, 10 + 2 * i] {
            let list = energies(rng, kind, len);
            put_some(out, &mut seen, rng, &own, &list, 20);
        }
    }
    let list = energies(rng, Kind::Sound, ENERGIES);
    put_some(out, &mut seen, rng, &own, &list, 20);
    for len in [1, 1, 2, 2, 3, 5, 8, 15] {
        let list = energies(rng, Kind::Sound, len);
        put_edges(out, &mut seen, rng, &own, &list);
    }
    for fives in [-14, 0, 13] {
        put_level(out, &mut seen, rng, fives);
    }
    put_above(out, &mut seen, rng, 180..220);
    put_ends(out, &mut seen, rng, 2);
    let specials = floats::specials();
    for pair in specials.chunks(2) {
        put_some(out, &mut seen, rng, &own, pair, 4);
    }
    seen
}
