// The Rust's dump of a recording, in document 01's text, and recordings to dump.
//   dump FILE                         the text; status 0 with `end`, 1 with `stop`
//   dump --texts FILE...              the texts, each behind a line with its name
//   dump --crate FILE                 the recording itself, every reading byte put to 0
//   dump --make SEED TO [RECORDINGS]  recordings made from SEED, into the folder TO; RECORDINGS holds tables.bin and real ones
// The Rust reads in the crate reading alone: where a configuration says 1, the text does too, and the answers are those of 0.
// Status 2: the input cannot be read. Status 3: the Rust panics, and document 01 has no place where it may.

mod dump {
    pub mod limit;
    pub mod make;
    pub mod malformed;
    pub mod tables;
    pub mod tape;
    pub mod text;
    pub mod walk;
}
#[allow(dead_code)]
mod frames {
    pub mod answers;
    pub mod make;
    pub mod recorded;
    pub mod rust;
    pub mod sets;
}
#[allow(dead_code)]
mod lc3;
#[allow(dead_code)]
mod records;
#[allow(dead_code)]
#[path = "cases/rows.rs"]
mod rows;

use dump::{make, text, walk};
use frames::recorded::Recordings;
use frames::rust;
// the six files name these from the crate's root
#[allow(unused_imports)]
use lc3::{common, encoder, tables};
use std::fs;
use std::io::Write;
use std::path::Path;
use std::process::exit;

fn main() {
    rust::quiet_panics();
    let words: Vec<String> = std::env::args().skip(1).collect();
    let words: Vec<&str> = words.iter().map(String::as_str).collect();
    match &words[..] {
        ["--crate", file] => say(&walk::in_crate_reading(whole(file))),
        ["--make", seed, to] => put(seed, to, None),
        ["--make", seed, to, folder] => {
            put(seed, to, Some(Recordings::of(folder).unwrap_or_else(|why| stop(2, &why))));
        }
        ["--texts", files @ ..] => {
            for file in files {
                let name = Path::new(file).file_stem().unwrap_or_default().to_string_lossy();
                say(format!("== {}\n{}", name, dumped(file).0).as_bytes());
            }
        }
        [file] if !file.starts_with("--") => {
            let (text, status) = dumped(file);
            say(text.as_bytes());
            exit(status)
        }
        _ => stop(2, "usage: dump FILE | dump --texts FILE... | dump --crate FILE | dump --make SEED TO [RECORDINGS]"),
    }
}

fn dumped(file: &str) -> (String, i32) {
    let (text, ended) = text::of(&whole(file)).unwrap_or_else(|why| stop(3, &format!("{}: {}", file, why)));
    (text, if ended { 0 } else { 1 })
}

fn whole(file: &str) -> Vec<u8> {
    fs::read(file).unwrap_or_else(|e| stop(2, &format!("{}: {}", file, e)))
}

// Each recording, and in `ends` how each one's text has to end.
fn put(seed: &str, to: &str, recordings: Option<Recordings>) {
    let seed = seed.parse().unwrap_or_else(|_| stop(2, "a seed is a number"));
    let write = |name: &str, bytes: &[u8]| {
        let path = Path::new(to).join(name);
        fs::write(&path, bytes).unwrap_or_else(|e| stop(2, &format!("{}: {}", path.display(), e)));
    };
    let mut ends = String::new();
    for (name, tape) in make::all(seed, recordings) {
        write(&format!("{}.bin", name), &tape.bytes);
        ends += &format!("{} {}\n", name, tape.end());
    }
    write("ends", ends.as_bytes());
}

fn say(bytes: &[u8]) {
    std::io::stdout().write_all(bytes).unwrap_or_else(|e| stop(2, &format!("cannot write: {}", e)));
}

fn stop(status: i32, why: &str) -> ! {
    eprintln!("dump: {}", why);
    exit(status)
}
