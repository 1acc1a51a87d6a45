// The comparison of the writer: the Rust of lc3-codec and this repository's code, linked into one program, write the same records.
//   writes SEED COUNT [FOLDER]   COUNT records made from SEED; FOLDER holds tables.bin and recordings
//   writes --record SEED TO      recordings of fields that are written, into the folder TO, each with the text that its dump has
// Every so many records are also written as a field of a larger buffer. Says how often each outcome occurred, and fails where an
// answer differs or an outcome that can occur did not.

#[allow(dead_code)]
mod dump {
    pub mod tables;
    pub mod text;
    pub mod walk;
}
#[allow(dead_code)]
mod frames {
    pub mod answers;
    pub mod port;
    pub mod recorded;
    pub mod rust;
    pub mod sets;
    pub mod tally;
}
#[allow(dead_code)]
mod lc3;
#[allow(dead_code)]
mod records;
#[allow(dead_code)]
#[path = "cases/rows.rs"]
mod rows;
mod writes {
    pub mod again;
    pub mod content;
    pub mod field;
    pub mod fixed;
    pub mod make;
    pub mod port;
    pub mod recorded;
    pub mod rust;
    pub mod tally;
}

use frames::recorded::Recordings;
use frames::sets::Lent;
use records::Rng;
use std::process::exit;
use writes::again;
use writes::content::{Case, Refused};
use writes::make::Maker;
use writes::rust::Need;
use writes::tally::Tally;
use writes::{field, fixed, port, recorded, rust};
// the six files name these from the crate's root
#[allow(unused_imports)]
use lc3::{common, encoder, tables};

// every so many records one is read back, and one is written as a field too
const BACK: usize = 9;
const FIELD: usize = 5;
// recordings of written fields
const RECORDINGS: usize = 10;

fn main() {
    let words: Vec<String> = std::env::args().skip(1).collect();
    records::quiet_panics();
    let (seed, count, folder) = match &words[..] {
        [record, seed, to] if record == "--record" => return record_all(seed.parse().unwrap_or_else(|_| usage()), to),
        [seed, count] => (seed.parse(), count.parse(), None),
        [seed, count, folder] => (seed.parse(), count.parse(), Some(folder.as_str())),
        _ => usage(),
    };
    let (Ok(seed), Ok(count)) = (seed, count) else { usage() };
    let recordings = folder.map(|folder| Recordings::of(folder).unwrap_or_else(|why| stop(&why)));
    let mut tally = Tally::new(recordings.is_some());
    fixed::all(&mut tally).unwrap_or_else(|why| stop(&why));
    let real = recordings.map(|r| again::all(r, &mut tally).unwrap_or_else(|why| stop(&why)));
    let mut maker = Maker::new(seed, real);
    let mut places = Rng::new(!seed);
    for at in 0..count {
        let case = maker.case(at);
        tally.count_case(maker.kind());
        let alone = compare(&case, maker.set(), &mut tally, at % BACK == 0).unwrap_or_else(|why| differs(&case, &why));
        if at % FIELD == 0 {
            let reading = at / FIELD % 2;
            field::compare(&case, maker.set(), reading, &alone[reading], &mut places, &mut tally)
                .unwrap_or_else(|why| differs(&case, &why));
        }
    }
    tally.say(seed);
    let missing = tally.missing();
    if !missing.is_empty() {
        stop(&format!("seed {}: never occurred: {}", seed, missing.join(", ")));
    }
}

// One recording of each block, by its table set.
fn record_all(seed: u64, to: &str) {
    let (mut maker, mut tally) = (Maker::new(seed, None), Tally::new(false));
    for block in 0..RECORDINGS {
        let (bytes, text) = recorded::make(&mut maker, block, &mut tally).unwrap_or_else(|why| stop(&why));
        for (name, content) in [("bin", &bytes[..]), ("text", text.as_bytes())] {
            std::fs::write(format!("{}/{:02}.{}", to, block, name), content)
                .unwrap_or_else(|why| stop(&why.to_string()));
        }
    }
}

// One record: the crate reading with the Rust, the standard reading with its one mask put into the Rust, and read back.
// Hands back the answer of each reading: the crate's is the Rust's.
fn compare(case: &Case, set: &Lent, tally: &mut Tally, back: bool) -> Result<[port::Answer; 2], String> {
    let expected = expected(case, tally)?;
    let first = port::write(case, set, 0)?;
    let (frame, need) = match expected {
        Ok(expected) => expected,
        Err(refused) if [first, port::write(case, set, 1)?] == [Err(refused), Err(refused)] => {
            return Ok([Err(refused), Err(refused)]);
        }
        Err(refused) => return Err(format!("the Rust says {:?}, and this code another number or place", refused)),
    };
    if first.as_ref() != Ok(&frame) {
        return Err(format!("the Rust says {}, reading 0 says {}", hex(&frame), said(&first)));
    }
    let second = port::write(case, set, 1)?;
    let standard = rust::encode_standard(case).ok_or("the Rust says nothing: it panics")?;
    tally.count_finish(&frame, &standard);
    // where the Rust's forecast cuts what E does not, the standard sends more
    let ([by_forecast, by_reserved], room) = (need.sent(case), case.bits() - need.bits());
    if by_forecast == by_reserved && second.as_ref() != Ok(&standard) {
        return Err(format!("with the mask the Rust says {}, reading 1 says {}", hex(&standard), said(&second)));
    }
    match &second {
        Ok(frame) if back => again::reads_back(case, set, frame, room, tally)?,
        Ok(_) => {}
        Err(refused) => return Err(format!("the Rust says {}, reading 1 says {:?}", hex(&frame), refused)),
    }
    Ok([Ok(frame), second])
}

type Expected = Result<(Vec<u8>, Need), Refused>;

// 13 to 15 by the rule, 16 by E of the Rust's own state, the frame by its `encode`.
fn expected(case: &Case, tally: &mut Tally) -> Result<Expected, String> {
    if let Some(refused) = case.refused() {
        tally.count_refused(case, refused);
        return Ok(Err(refused));
    }
    let need = rust::need(case).ok_or("the Rust says nothing: it panics before the residual bits")?;
    tally.count_need(case, &need);
    if need.bits() > case.bits() {
        return Ok(Err(Refused(16, 0)));
    }
    let frame = rust::encode(case).ok_or("the Rust says nothing: it panics on a record that is accepted")?;
    Ok(Ok((frame, need)))
}

fn hex(bytes: &[u8]) -> String {
    bytes.iter().map(|byte| format!("{:02x}", byte)).collect()
}

fn said(answer: &port::Answer) -> String {
    answer.as_ref().map_or_else(|refused| format!("{:?}", refused), |frame| hex(frame))
}

fn differs(case: &Case, why: &str) -> ! {
    stop(&format!("{:?}: {}", case, why))
}

fn usage() -> ! {
    eprintln!("usage: writes SEED COUNT [FOLDER] | writes --record SEED TO");
    exit(2)
}

fn stop(why: &str) -> ! {
    eprintln!("writes: {}", why);
    exit(1)
}
