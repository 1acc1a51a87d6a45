// Cases of the range encoder: runs of symbols from its start to the finished bytes, in the crate reading as the Rust sends
// them, in the standard reading as the Rust with the standard's one mask does. The aim below only chooses the symbols; every
// answer is the Rust's.

use super::rows::{self, Row, TOTAL};
use crate::lc3::coder::State;
use crate::lc3::encoder::{bitstream_encoding::door, standard_encoding};
use crate::records::{search, written, OneOfEach, Records, Rng};

// the longest list
const LONGEST: usize = 500;
// A random run holds some forty symbols, so a module's count makes fewer runs than cases.
const RUNS: usize = 10;

// Symbols, each with the row that it is sent by.
struct List {
    rows: Vec<Row>,
    sent: Vec<(usize, usize)>,
}

// The byte shifts of a state: the bytes that are out, the one in the cache and the 0xFFs behind it.
fn shifts(at: State) -> usize {
    at.bp + (at.cache >= 0) as usize + at.carry_count as usize
}

// Reserved bits, by document 01: 8S + 25 - floor(log2 range).
fn reserved(at: State) -> usize {
    let mut log = 0;
    while at.range >> (log + 1) > 0 {
        log += 1;
    }
    8 * shifts(at) + 25 - log
}

// What the finish leaves behind a state; a reading is 0, the crate's, or 1, the standard's.
fn finished_in(reading: u8, at: State, bytes: &mut [u8]) -> State {
    match reading {
        0 => door::finished(at, bytes),
        _ => standard_encoding::door::finished(at, bytes),
    }
}

fn finished(at: State, bytes: &mut [u8]) -> State {
    finished_in(0, at, bytes)
}

// How many top bits of the byte at `end` the finish sends: those that are the same whatever stood there.
fn last_bits(reading: u8, at: State, end: usize, len: usize) -> usize {
    let sent = [0x00, 0xff].map(|fill| {
        let mut bytes = vec![fill; len];
        finished_in(reading, at, &mut bytes);
        bytes[end]
    });
    (sent[0] ^ sent[1]).leading_zeros() as usize
}

impl List {
    // What the Rust comes to, symbol by symbol, in a buffer that has room for all.
    fn states(&self, bytes: &mut [u8]) -> Vec<State> {
        let mut coder = door::start();
        let mut states = vec![door::state(&coder)];
        for (row, symbol) in &self.sent {
            let row = &self.rows[*row];
            door::symbol(&mut coder, row.cumulative[*symbol], row.frequency[*symbol], bytes);
            states.push(door::state(&coder));
        }
        states
    }

    // By the last state: the shifts, what the finish meets, the 0xFFs that wait; and how many waited and how far a carry went.
    fn class(&self) -> (usize, bool, bool, bool, i32, i32) {
        let mut bytes = self.roomy();
        let states = self.states(&mut bytes);
        let (last, end) = (*states.last().unwrap(), finished(*states.last().unwrap(), &mut bytes));
        let waited = states.iter().map(|at| at.carry_count).max().unwrap();
        (
            shifts(last).min(2),
            readings_part(last),
            last.carry_count > 0,
            end.carry_count > 0,
            waited.min(3),
            carried_most(&states, end, &bytes).min(3),
        )
    }

    // A buffer that every step has room in.
    fn roomy(&self) -> Vec<u8> {
        vec![0; 2 * self.sent.len() + 4]
    }

    // As it is lent: where each symbol begins in its row, and its frequency.
    fn lent(&self) -> Vec<u8> {
        let part = |(row, symbol): &(usize, usize)| {
            let row = &self.rows[*row];
            [row.cumulative[*symbol], row.frequency[*symbol]]
        };
        self.sent.iter().flat_map(part).flat_map(i16::to_be_bytes).collect()
    }

    // The run in a reading, into `buf`. The Rust has no panic here.
    fn put_run(&self, out: &mut Records, reading: u8, buf: &[u8]) {
        out.put_said(65, (&[reading as usize], buf), None, || {
            let mut bytes = buf.to_vec();
            let at = *self.states(&mut bytes).last().unwrap();
            let forecast = door::forecast(&door::coder(at));
            let end = finished_in(reading, at, &mut bytes).bp;
            let (held, bits) = ((at.cache >= 0) as usize, last_bits(reading, at, end, buf.len()));
            let ends = [held, at.carry_count as usize, at.bp, reserved(at), forecast, end, bits];
            let interval = [at.low, at.range, at.cache.max(0) as u32, at.carry as u32].map(|n| n as usize);
            written(&[&ends[..], &interval].concat(), &bytes)
        });
    }

    // Both readings, in a buffer of random bytes that is at times as short as it may be, and never `most` bytes longer.
    fn put_all(&self, rng: &mut Rng, most: usize, out: &mut Records, seen: &mut Seen) {
        let mut bytes = self.roomy();
        let states = self.states(&mut bytes);
        seen.take(&states, &mut bytes);
        let last = *states.last().unwrap();
        let before = states.len().checked_sub(2).map_or(0, |i| shifts(states[i]) + 2);
        let least = before.max((reserved(last) + 7) / 8);
        let most = [3, 3, 40, 400][rng.below(4)].min(most);
        let more = rng.below(most);
        let before = rng.bytes(least + more);
        out.lend(&self.lent());
        self.put_run(out, 0, &before);
        self.put_run(out, 1, &before);
    }
}

// What the runs met, by the Rust's states.
#[derive(Default)]
struct Seen {
    runs: usize,
    symbols: usize,
    // a symbol that shifted two bytes
    twice: usize,
    // runs where three 0xFFs and more waited, and the most that waited
    waited: usize,
    most: i32,
    // runs where a carry passed through 0xFFs that waited, and through three and more
    carried: usize,
    carried_far: usize,
    // runs that ended with 0xFFs still waiting, at the finish and behind it
    waiting: usize,
    held: usize,
    // runs with no byte in the cache at the end: the forecast is E + 8 there
    no_cache: usize,
    // runs where the finish in the two readings sends other bits
    part: usize,
}

// How many 0xFFs a carry has passed through between two states: sent so, they are bytes of 0.
fn carried_through(from: State, to: State, bytes: &[u8]) -> i32 {
    let place = from.bp + (from.cache >= 0) as usize;
    match from.carry_count {
        n if n > 0 && to.bp > place && bytes[place] == 0 => n,
        _ => 0,
    }
}

// Whether `high` decides the finish, and its 25th bit decides what it says.
fn readings_part(at: State) -> bool {
    let mask = 0xffffff >> (at.range.leading_zeros() - 7);
    let (sum, high) = (at.low + mask, at.low + at.range);
    let value = sum & 0xffffff & !mask;
    sum >> 24 == high >> 24 && (value + mask >= high) != (value + mask >= high & 0xffffff)
}

// The most of them in a run that has been finished.
fn carried_most(states: &[State], end: State, bytes: &[u8]) -> i32 {
    let all: Vec<State> = states.iter().copied().chain([end]).collect();
    all.windows(2).map(|two| carried_through(two[0], two[1], bytes)).max().unwrap()
}

impl Seen {
    // The states of a run, and the bytes that it left; these are finished here.
    fn take(&mut self, states: &[State], bytes: &mut [u8]) {
        let last = *states.last().unwrap();
        let end = finished(last, bytes);
        let carried = carried_most(states, end, bytes);
        let most = states.iter().map(|at| at.carry_count).max().unwrap();
        self.runs += 1;
        self.symbols += states.len() - 1;
        self.twice += states.windows(2).filter(|two| shifts(two[1]) == shifts(two[0]) + 2).count();
        self.waited += (most >= 3) as usize;
        self.most = self.most.max(most);
        self.carried += (carried >= 1) as usize;
        self.carried_far += (carried >= 3) as usize;
        self.waiting += (last.carry_count > 0) as usize;
        self.held += (end.carry_count > 0) as usize;
        self.no_cache += (last.cache < 0) as usize;
        self.part += readings_part(last) as usize;
    }

    fn say(&self) {
        eprintln!(
            "oracle range_encoder: {} lists of {} symbols, each in both readings; symbols that shift two bytes: {}; runs where 3 \
             or more 0xFFs wait: {} (at most {}), where a carry passes through them: {}, through 3 or more: {}; that end \
             with 0xFFs waiting: {}, and send them last: {}; that end with no byte in the cache: {}; where the readings \
             part in the finish: {}",
            self.runs,
            self.symbols,
            self.twice,
            self.waited,
            self.most,
            self.carried,
            self.carried_far,
            self.waiting,
            self.held,
            self.no_cache,
            self.part
        );
    }
}

// Bytes with runs of 0x00 and of 0xFF. A list that leads there has its interval about such a place for long: 0xFFs wait,
// and then are carried into, or not.
fn target(rng: &mut Rng, len: usize) -> Vec<u8> {
    let mut bytes = Vec::new();
    while bytes.len() < len {
        let any = rng.below(5);
        bytes.extend(rng.bytes(any));
        let (fill, most) = ([0x00, 0xff][rng.below(2)], [3, 8, 30][rng.below(3)]);
        bytes.extend(vec![fill; 1 + rng.below(most)]);
    }
    bytes
}

// The symbols that lead to the bytes of a target, by rows at random.
fn towards(rng: &mut Rng, rows: &[Row], target: &[u8], count: usize) -> Vec<(usize, usize)> {
    let mut bytes = target.iter().map(|b| *b as u32).chain(std::iter::repeat(0));
    let mut next = || bytes.next().unwrap();
    let mut low = next() << 16 | next() << 8 | next();
    let mut range = 0xffffff;
    let mut sent = Vec::new();
    for _ in 0..count {
        let r = rng.below(rows.len());
        let (row, unit) = (&rows[r], range >> 10);
        // what no symbol holds is led to the last of them
        low = low.min(unit * TOTAL as u32 - 1);
        let symbol = row.owner((low / unit) as usize);
        low -= unit * row.cumulative[symbol] as u32;
        range = unit * row.frequency[symbol] as u32;
        while range < 0x10000 {
            low = low << 8 | next();
            range <<= 8;
        }
        sent.push((r, symbol));
    }
    sent
}

// The rows of the systematic runs.
fn fixed_rows() -> Vec<Row> {
    let mut all = vec![rows::flat(1), rows::flat(2), rows::flat(8), rows::flat(17)];
    all.extend([rows::peaked(2, 0), rows::peaked(2, 1), rows::peaked(17, 0), rows::peaked(17, 16)]);
    all.extend([rows::around(vec![1, 2, 3, 4], 4), rows::around(vec![4, 3, 2, 1], 0)]);
    all
}

// The empty list; each symbol of each row alone, all pairs by one row, one symbol over and over.
fn systematic(mut take: impl FnMut(List)) {
    let mut list = |row: &Row, symbols: Vec<usize>| {
        take(List { rows: vec![row.clone()], sent: symbols.into_iter().map(|symbol| (0, symbol)).collect() })
    };
    list(&rows::flat(1), Vec::new());
    for row in [rows::flat(TOTAL), rows::peaked(TOTAL - 1, 0)] {
        (0..row.len()).for_each(|k| list(&row, vec![k]));
    }
    for row in fixed_rows() {
        for k in 0..row.len() {
            list(&row, vec![k]);
            (0..row.len()).for_each(|second| list(&row, vec![k, second]));
            [3, 4, 8, 40].into_iter().for_each(|n| list(&row, vec![k; n]));
        }
    }
}

fn random(rng: &mut Rng) -> List {
    let rows = rows::some(rng);
    let count = match rng.below(20) {
        0..=4 => rng.below(6),
        5..=14 => 1 + rng.below(60),
        15..=18 => 1 + rng.below(150),
        _ => 1 + rng.below(LONGEST),
    };
    let how = rng.below(8);
    if how < 4 {
        let to = target(rng, 60);
        return List { sent: towards(rng, &rows, &to, count), rows };
    }
    let mut one = || {
        let r = rng.below(rows.len());
        let row = &rows[r];
        let symbol = match how {
            4 => rng.below(row.len()),
            5 => (0..row.len()).min_by_key(|k| row.frequency[*k]).unwrap(),
            6 => row.len() - 1 - rng.below(row.len().min(2)),
            _ => row.owner(rng.below(TOTAL)),
        };
        (r, symbol)
    };
    let sent = (0..count).map(|_| one()).collect();
    List { rows, sent }
}

// Where a part of the interval may begin or end so that the encoder, or its finish, decides by just that number.
#[derive(Clone, Copy)]
enum Aim {
    // low at 0xFF0000, or at a carry, and one to each side
    Begin(u32),
    // a range of 0x10000 before or behind a shift, and one less
    Width(u32),
    // the end at the last number of a step of 0x10000, and one to each side
    End(u32),
    // low at 0xFF0000 or behind, and shifted, while a carry is known
    Late,
}

const AIMS: [Aim; 15] = [
    Aim::Begin(0xfeffff),
    Aim::Begin(0xff0000),
    Aim::Begin(0xff0001),
    Aim::Begin(0xffffff),
    Aim::Begin(0x1000000),
    Aim::Begin(0x1000001),
    Aim::Width(0x10000),
    Aim::Width(0xffff),
    Aim::Width(0x100),
    Aim::Width(0xff),
    Aim::End(0xfffe),
    Aim::End(0xffff),
    Aim::End(0x0000),
    Aim::End(0x0001),
    Aim::Late,
];

// The symbol that reaches an aim from a state: where it begins in its row, and its frequency.
fn reaching(rng: &mut Rng, at: State, aim: Aim) -> Option<(usize, usize)> {
    let unit = at.range >> 10;
    match aim {
        Aim::Begin(low) => {
            let from = low.checked_sub(at.low)?;
            let begin = (from / unit) as usize;
            let most = [3, TOTAL][rng.below(2)].min(TOTAL.saturating_sub(begin));
            (from % unit == 0 && begin < TOTAL).then(|| (begin, 1 + rng.below(most)))
        }
        Aim::Width(range) => {
            let frequency = (range / unit) as usize;
            (range % unit == 0 && (1..=TOTAL).contains(&frequency))
                .then(|| (rng.below(TOTAL - frequency + 1), frequency))
        }
        Aim::End(last) => {
            // so that the range is from 0x10000 on, and below 0x20000, as the unit is below 0x10000
            let frequency = (0x10000 / unit) as usize + 1;
            let reaches = |end: &usize| (at.low + unit * *end as u32) & 0xffff == last;
            (frequency..=TOTAL).find(reaches).map(|end| (end - frequency, frequency))
        }
        Aim::Late => {
            let begin = (0xff0000_u32.saturating_sub(at.low) / unit) as usize + 1;
            (at.carry == 1 && begin < TOTAL).then_some((begin, 1))
        }
    }
}

// A list whose last symbol, by a row of its own, reaches the aim; lists are tried at each of their places until one does.
fn aimed(rng: &mut Rng, aim: Aim) -> List {
    search("a list that reaches its aim", || {
        let len = 1 + rng.below(20);
        let rows = vec![rows::any(rng, len)];
        let sent = (0..20).map(|_| (0, rows[0].owner(rng.below(TOTAL)))).collect();
        let mut list = List { rows, sent };
        let mut states = list.states(&mut list.roomy()).into_iter().enumerate();
        let (i, (begin, frequency)) = states.find_map(|(i, at)| Some((i, reaching(rng, at, aim)?)))?;
        let parts = [begin, frequency, TOTAL - begin - frequency];
        list.rows.push(Row::new(parts.into_iter().filter(|n| *n > 0).map(|n| n as i16).collect()));
        list.sent.truncate(i);
        list.sent.push((1, (begin > 0) as usize));
        Some(list)
    })
}

// A list through which so many 0xFFs wait. It leads just past a number that ends in as many zeros, so that a carry passes
// through them at last, or just before it, so that none does; or it ends before that is known.
fn waiting(rng: &mut Rng, count: usize, fill: u8, behind: usize) -> List {
    let rows = vec![rows::flat(TOTAL)];
    let mut to = vec![0x12, 0x34];
    to.extend(vec![fill; count]);
    to.extend([0x40, 0x99, 0x17]);
    // a symbol has ten bits
    List { sent: towards(rng, &rows, &to, 8 * (2 + count) / 10 + behind), rows }
}

// A list at whose end so many 0xFFs, or a few less, still wait, and the finish sends them all.
fn held(rng: &mut Rng, count: usize) -> List {
    search("a list whose finish sends what waits", || {
        let rows = vec![rows::flat(TOTAL), rows::flat(17)];
        let mut to = vec![0x12, 0x34];
        to.extend(vec![0xff; count]);
        to.extend([0xfe, rng.next() as u8, rng.next() as u8]);
        let mut list = List { sent: towards(rng, &rows, &to, LONGEST), rows };
        let mut bytes = list.roomy();
        let states = list.states(&mut bytes);
        let mut waits = |at: &State| at.carry_count as usize + 8 > count && finished(*at, &mut bytes).carry_count > 0;
        list.sent.truncate(states.iter().position(&mut waits)?);
        Some(list)
    })
}

pub fn run(out: &mut Records, seed: u64, count: usize) {
    let rng = &mut Rng::new(seed);
    let seen = &mut Seen::default();
    systematic(|list| list.put_all(rng, 400, out, seen));
    for aim in AIMS {
        (0..30).for_each(|_| aimed(rng, aim).put_all(rng, 400, out, seen));
    }
    for count in [3, 60, 254, 255, 256, 257, 258, 300, 400] {
        for (fill, behind) in [(0x00, 0), (0x00, 8), (0xff, 0), (0xff, 8)] {
            waiting(rng, count, fill, behind).put_all(rng, 400, out, seen);
        }
        held(rng, count).put_all(rng, 400, out, seen);
    }
    for _ in 0..count / RUNS {
        random(rng).put_all(rng, 400, out, seen);
    }
    seen.say();
}

// Short lists by short rows: of each aim some, of the systematic and of random ones one of each class; by the longest row
// a short one, and some through which 0xFFs wait for long.
pub fn sample(out: &mut Records) {
    let rng = &mut Rng::new(0);
    let pick = &mut Rng::new(1);
    let seen = &mut Seen::default();
    for aim in AIMS {
        (0..2).for_each(|_| aimed(rng, aim).put_all(rng, 8, out, seen));
    }
    let mut classes = OneOfEach::new();
    systematic(|list| {
        if list.rows[0].len() <= 20 {
            classes.take(pick, list.class(), list)
        }
    });
    for _ in 0..20_000 {
        let list = random(rng);
        if list.rows.iter().map(Row::len).sum::<usize>() + list.sent.len() <= 60 {
            classes.take(pick, list.class(), list)
        }
    }
    classes.cases().for_each(|list| list.put_all(rng, 8, out, seen));
    List { rows: vec![rows::flat(TOTAL)], sent: vec![(0, 1023), (0, 0)] }.put_all(rng, 8, out, seen);
    for (fill, behind) in [(0x00, 0), (0x00, 8), (0xff, 0), (0xff, 8)] {
        waiting(rng, 300, fill, behind).put_all(rng, 8, out, seen);
    }
    held(rng, 300).put_all(rng, 8, out, seen);
    seen.say();
}
