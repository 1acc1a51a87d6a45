// Records of cases and answers, the generator that makes the cases, and the rule that every panic is held to.

use std::cell::Cell;
use std::collections::btree_map::{BTreeMap, Entry};
use std::io::{BufWriter, Stdout, Write};
use std::panic::{catch_unwind, set_hook, take_hook, AssertUnwindSafe};
use std::sync::atomic::{AtomicBool, Ordering};

// First number of an answer that is no refusal.
const ACCEPTED: usize = 0;
// the most numbers that a call or an answer has
const NUMBERS: usize = 24;

// Numbers, and the bytes that a call leaves where it writes.
pub struct Answer {
    pub numbers: Vec<usize>,
    pub left: Vec<u8>,
}

impl Answer {
    // The refusal's number; None where it is none.
    pub fn refusal(&self) -> Option<usize> {
        Some(self.numbers[0]).filter(|number| *number != ACCEPTED)
    }
}

fn answer(number: usize, values: &[usize], left: &[u8]) -> Answer {
    Answer { numbers: [&[number], values].concat(), left: left.to_vec() }
}

// The answer of a refusal: its number and its values.
pub fn refused(number: usize, values: &[usize]) -> Answer {
    answer(number, values, &[])
}

// Refusal 9 by the tail cursor at which the Rust's reader stands, of which the Rust itself tells the bit index alone.
pub fn no_tail_room(width: usize, bit_index: usize, tail: usize) -> Answer {
    hold(bit_index == tail % 8, "a bit index that is not the tail cursor's, modulo 8");
    refused(9, &[width, tail])
}

pub fn accepted(values: &[usize]) -> Answer {
    answer(ACCEPTED, values, &[])
}

// With the bytes that the call leaves.
pub fn written(values: &[usize], left: &[u8]) -> Answer {
    answer(ACCEPTED, values, left)
}

// Heads and tails past the domain of comparison, where the Rust's sums wrap: at these tails no buffer has room.
pub fn beyond() -> Vec<(usize, usize)> {
    let tails = [1 << 20, 1 << 32, usize::MAX - 7, usize::MAX];
    tails.iter().flat_map(|tail| [(0, *tail), (usize::MAX, *tail)]).collect()
}

// Splitmix64: the same numbers from a seed on every machine.
pub struct Rng(u64);

impl Rng {
    pub fn new(seed: u64) -> Self {
        Rng(seed)
    }

    pub fn next(&mut self) -> u64 {
        self.0 = self.0.wrapping_add(0x9e37_79b9_7f4a_7c15);
        let mut z = self.0;
        z = (z ^ (z >> 30)).wrapping_mul(0xbf58_476d_1ce4_e5b9);
        z = (z ^ (z >> 27)).wrapping_mul(0x94d0_49bb_1331_11eb);
        z ^ (z >> 31)
    }

    // A number of 0..n.
    pub fn below(&mut self, n: usize) -> usize {
        (self.next() % n as u64) as usize
    }

    pub fn bytes(&mut self, len: usize) -> Vec<u8> {
        (0..len).map(|_| self.next() as u8).collect()
    }
}

// Holds one case of each class, every case of a class as likely as another.
pub struct OneOfEach<K, C>(BTreeMap<K, (usize, C)>);

impl<K: Ord, C> OneOfEach<K, C> {
    pub fn new() -> Self {
        OneOfEach(BTreeMap::new())
    }

    pub fn take(&mut self, pick: &mut Rng, class: K, case: C) {
        match self.0.entry(class) {
            Entry::Vacant(class) => {
                class.insert((1, case));
            }
            Entry::Occupied(mut class) => {
                let (seen, held) = class.get_mut();
                *seen += 1;
                if pick.below(*seen) == 0 {
                    *held = case;
                }
            }
        }
    }

    // In the order of the classes.
    pub fn cases(&self) -> impl Iterator<Item = &C> {
        self.0.values().map(|(_, case)| case)
    }
}

// Writes records to standard output: a kind, how many numbers the call has, how many the answer, and 0, a byte each; how many
// bytes the call has and how many it leaves, two bytes each; the call's numbers, eight bytes each, and its bytes; the answer's.
// All are big-endian. A record of kind 0 has bytes alone, which are lent to the calls behind it.
pub struct Records {
    out: BufWriter<Stdout>,
    lent: Option<Vec<u8>>,
    counts: BTreeMap<usize, usize>,
    panics: usize,
}

impl Records {
    pub fn to_stdout() -> Self {
        let out = BufWriter::with_capacity(1 << 16, std::io::stdout());
        Records { out, lent: None, counts: BTreeMap::new(), panics: 0 }
    }

    fn write(&mut self, kind: u8, (numbers, bytes): (&[usize], &[u8]), answer: &Answer) {
        assert!(numbers.len() <= NUMBERS && answer.numbers.len() <= NUMBERS, "a record has too many numbers");
        assert!(bytes.len() + answer.left.len() <= 60_000, "a record is too long");
        let mut record = vec![kind, numbers.len() as u8, answer.numbers.len() as u8, 0];
        record.extend((bytes.len() as u16).to_be_bytes());
        record.extend((answer.left.len() as u16).to_be_bytes());
        numbers.iter().for_each(|n| record.extend((*n as u64).to_be_bytes()));
        record.extend(bytes);
        answer.numbers.iter().for_each(|n| record.extend((*n as u64).to_be_bytes()));
        record.extend(&answer.left);
        self.out.write_all(&record).unwrap_or_else(|e| stop(&format!("cannot write: {}", e)));
    }

    // What the calls from here on are lent; it is no case.
    pub fn lend(&mut self, bytes: &[u8]) {
        if self.lent.as_deref() != Some(bytes) {
            self.lent = Some(bytes.to_vec());
            self.write(0, (&[], bytes), &Answer { numbers: Vec::new(), left: Vec::new() });
        }
    }

    pub fn put(&mut self, kind: u8, call: (&[usize], &[u8]), answer: &Answer) {
        *self.counts.entry(answer.numbers[0]).or_insert(0) += 1;
        self.write(kind, call, answer);
    }

    // A call with what the Rust says of it. `panics` is the rule: the refusal that document 01 gives where the Rust has
    // none and panics. That refusal is then the answer. A panic elsewhere, or none there, ends the run.
    pub fn put_said(
        &mut self,
        kind: u8,
        call: (&[usize], &[u8]),
        panics: Option<Answer>,
        said: impl FnOnce() -> Answer,
    ) {
        let said = caught(said);
        let answer = match (FAULT.with(Cell::take), said, panics) {
            (Some(what), ..) => wrong(kind, call, what),
            (None, Some(answer), None) => answer,
            (None, None, Some(refusal)) => {
                self.panics += 1;
                refusal
            }
            (None, None, None) => wrong(kind, call, "the Rust panics, and no rule says that it does"),
            (None, Some(_), Some(_)) => wrong(kind, call, "the Rust returns where the rule says that it panics"),
        };
        self.put(kind, call, &answer);
    }

    // Says on standard error how many records were written, by answer.
    pub fn finish(mut self, what: &str) {
        self.out.flush().unwrap_or_else(|e| stop(&format!("cannot write: {}", e)));
        let all: usize = self.counts.values().sum();
        let mut parts: Vec<String> = self
            .counts
            .iter()
            .map(|(first, n)| match *first {
                ACCEPTED => format!("{} accepted", n),
                number => format!("{} refused {}", n, number),
            })
            .collect();
        parts.push(format!("{} where the Rust panics", self.panics));
        eprintln!("oracle {}: {} cases: {}", what, all, parts.join(", "));
    }
}

pub fn stop(why: &str) -> ! {
    eprintln!("oracle: FAILED: {}", why);
    std::process::exit(1)
}

fn wrong(kind: u8, (numbers, bytes): (&[usize], &[u8]), what: &str) -> ! {
    let hex: String = bytes.iter().map(|byte| format!("{:02x}", byte)).collect();
    stop(&format!("{}: kind {} call {:?} {}", what, kind, numbers, hex))
}

thread_local! {
    static FAULT: Cell<Option<&'static str>> = const { Cell::new(None) };
}

// Something beside the answer that has to be so. Where it is not, the run ends with the case that is under way.
pub fn hold(is_so: bool, fault: &'static str) {
    if !is_so {
        FAULT.with(|held| held.set(Some(fault)));
    }
}

// The first that is found, of so many tries that only a Rust that is not the one expected uses them up.
pub fn search<T>(what: &str, mut find: impl FnMut() -> Option<T>) -> T {
    (0..10_000_000).find_map(|_| find()).unwrap_or_else(|| stop(&format!("nothing was found: {}", what)))
}

static CAUGHT: AtomicBool = AtomicBool::new(false);

// Keeps a panic inside `caught` silent; one of this program's own still says where it was.
pub fn quiet_panics() {
    let loud = take_hook();
    set_hook(Box::new(move |info| {
        if !CAUGHT.load(Ordering::Relaxed) {
            loud(info)
        }
    }));
}

// What the Rust returns where it has no panic; `case` says which call it is.
pub fn returned<R>(call: impl FnOnce() -> R, case: impl FnOnce() -> String) -> R {
    caught(call).unwrap_or_else(|| stop(&format!("the Rust panics, and no rule says that it does: {}", case())))
}

// What the Rust returns, or None where it panics.
pub fn caught<R>(call: impl FnOnce() -> R) -> Option<R> {
    CAUGHT.store(true, Ordering::Relaxed);
    let result = catch_unwind(AssertUnwindSafe(call));
    CAUGHT.store(false, Ordering::Relaxed);
    result.ok()
}
