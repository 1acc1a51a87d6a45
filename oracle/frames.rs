// The comparison of whole frames: the Rust of lc3-codec and this repository's code, linked into one program, read the same bytes.
//   frames SEED COUNT [FOLDER]   COUNT frames made from SEED; FOLDER holds tables.bin and recordings
// Says how often each outcome occurred, and fails where an answer differs or an outcome that can occur did not.

#[allow(dead_code)]
mod frames {
    pub mod answers;
    pub mod flat;
    pub mod make;
    pub mod port;
    pub mod recorded;
    pub mod rust;
    pub mod sets;
    pub mod tally;
}
#[allow(dead_code)]
mod lc3;
#[allow(dead_code)]
mod records;
#[allow(dead_code)]
#[path = "cases/rows.rs"]
mod rows;

use frames::answers::{Answer, Case, Read, Refused};
use frames::make::Maker;
use frames::recorded::Recordings;
use frames::tally::Tally;
use frames::{flat, port, rust, sets};
// the six files name these from the crate's root
#[allow(unused_imports)]
use lc3::{common, encoder, tables};
use std::process::exit;

fn main() {
    let words: Vec<String> = std::env::args().skip(1).collect();
    let (seed, count, folder) = match &words[..] {
        [seed, count] => (seed.parse(), count.parse(), None),
        [seed, count, folder] => (seed.parse(), count.parse(), Some(folder.as_str())),
        _ => usage(),
    };
    let (Ok(seed), Ok(count)) = (seed, count) else { usage() };
    rust::quiet_panics();
    let recordings = folder.map(|folder| Recordings::of(folder).unwrap_or_else(|why| stop(&why)));
    let mut tally = Tally::new(recordings.is_some());
    port::limits(&mut tally).unwrap_or_else(|why| stop(&why));
    flat::all(seed, &mut tally).unwrap_or_else(|why| stop(&why));
    port::hand(&mut tally).unwrap_or_else(|why| stop(&why));
    let set = recordings.as_ref().map_or(&tables::FLAT, |all| &all.set);
    port::tables(set, &mut tally).unwrap_or_else(|why| stop(&why));
    let mut maker = Maker::new(seed, recordings);
    for at in 0..count {
        let case = maker.case(at);
        compare(&case, maker.set(), &mut tally).unwrap_or_else(|why| differs(&case, &why));
    }
    tally.say(seed);
    let missing = tally.missing();
    if !missing.is_empty() {
        stop(&format!("seed {}: never occurred: {}", seed, missing.join(", ")));
    }
}

// One frame in both readings.
fn compare(case: &Case, set: &sets::Lent, tally: &mut Tally) -> Result<(), String> {
    let expected = rust::read(case);
    tally.count(case, &expected);
    let first = port::read(case, set, 0)?;
    if first != expected {
        return Err(format!("the Rust says {:?}, reading 0 says {:?}", expected, first));
    }
    let second = port::read(case, set, 1)?;
    if case.real && matches!(second, Answer::Refused(_)) {
        return Err(format!("a real frame, and reading 1 says {:?}", second));
    }
    let damaged = rust::damaged(case);
    tally.count_readings(&first, &second, damaged);
    if let Some(pair) = damaged {
        return refused(&first, &second, pair);
    }
    match (&first, &second) {
        (Answer::Read(a), Answer::Read(b)) => agrees(case, a, b),
        (Answer::Refused(a), Answer::Refused(b)) if a == b => Ok(()),
        _ => Err(format!("reading 0 says {:?}, reading 1 says {:?}", first, second)),
    }
}

// Request P4: a fourteenth escape is refused in the standard reading, whatever comes behind it. Where the crate reads on, the pair's
// second line is 4 or more at level 14, and no pair before it has one.
fn refused(first: &Answer, second: &Answer, pair: usize) -> Result<(), String> {
    let over = |x: &i32| x.unsigned_abs() >= 4 << 14;
    let there = match first {
        Answer::Read(a) => a.lines.iter().position(over) == Some(2 * pair + 1),
        Answer::Refused(_) => true,
    };
    match there && *second == Answer::Refused(Refused::new(19, &[pair], &[])) {
        true => Ok(()),
        false => Err(format!(
            "the Rust says pair {} has fourteen escapes, reading 0 says {:?}, reading 1 says {:?}",
            pair, first, second
        )),
    }
}

// The standard's zero flag also asks for a noise field of 7. Only in least-bit mode do the readings differ further: in the lines,
// and so in what comes of them.
fn agrees(case: &Case, a: &Read, b: &Read) -> Result<(), String> {
    if b.lines.iter().any(|x| x.unsigned_abs() > 32_767) {
        return Err(format!("reading 1 has a line over 32,767: {:?}", b));
    }
    let mut expected = a.clone();
    if a.least_bits() {
        expected.lines.clone_from(&b.lines);
        expected.tail = b.tail;
        expected.seed = b.seed;
        expected.zero = b.zero;
        // what comes late changes a magnitude by one at most, and what it reads is within the frame
        let near = a.lines.iter().zip(&b.lines).all(|(x, y)| x.unsigned_abs().abs_diff(y.unsigned_abs()) <= 1);
        if !near || b.tail > 8 * case.frame.len() {
            return Err(format!("in least-bit mode reading 0 says {:?}, reading 1 says {:?}", a, b));
        }
    } else {
        expected.zero = a.zero && a.noise() == 7;
    }
    if *b == expected {
        Ok(())
    } else {
        Err(format!("reading 0 says {:?}, reading 1 says {:?}", a, b))
    }
}

fn differs(case: &Case, why: &str) -> ! {
    stop(&format!("{:?}: {}", case, why))
}

fn usage() -> ! {
    eprintln!("usage: frames SEED COUNT [FOLDER]");
    exit(2)
}

fn stop(why: &str) -> ! {
    eprintln!("frames: {}", why);
    exit(1)
}
