// Recordings about the 65,536 bytes that count: fields that end there, begin there or pass them.

use super::make::{Maker, Set};
use super::tape::Tape;
use super::walk::{LONGEST, MOST};

// what a frame takes at most, with a configuration before it
const LARGEST: usize = 6 + 3 + 400;

struct Edge {
    name: &'static str,
    // so many bytes short of the limit the frames end
    before: usize,
    // what stands behind them, and how many of these are sound; one byte stands for a header that is cut
    behind: Vec<Vec<u8>>,
    sound: usize,
}

fn field(tag: u8, length: usize) -> Vec<u8> {
    let mut bytes = vec![tag, (length >> 8) as u8, length as u8];
    bytes.resize(3 + length, 0);
    bytes
}

fn edges() -> Vec<Edge> {
    let edge = |name, before, behind, sound| Edge { name, before, behind, sound };
    vec![
        edge("ends-there", 0, vec![], 0),
        edge("a-byte-behind", 0, vec![vec![0x02]], 0),
        edge("a-frame-behind", 0, vec![field(0x02, 60)], 0),
        edge("much-behind", 0, vec![field(0x02, 300); 200], 0),
        edge("ends-before", 1, vec![], 0),
        edge("header-cut", 1, vec![vec![0x02]], 0),
        edge("header-passes", 2, vec![field(0x02, 60)], 0),
        edge("empty-frame", 3, vec![field(0x02, 0)], 1),
        edge("content-begins-there", 3, vec![field(0x02, 20)], 0),
        edge("content-passes-by-one", 100, vec![field(0x02, 98)], 0),
        edge("content-passes", 1_000, vec![field(0x02, LONGEST)], 0),
        edge("configuration", 6, vec![field(0x01, 3)], 1),
        edge("configuration-passes", 5, vec![field(0x01, 3)], 0),
        edge("configuration-behind", 6, vec![field(0x01, 3); 2], 1),
    ]
}

pub fn all(maker: &mut Maker) -> Vec<(String, Tape)> {
    let mut tapes = Vec::new();
    for edge in edges() {
        let mut tape = filled(maker, MOST - edge.before);
        for (k, bytes) in edge.behind.iter().enumerate() {
            if k == edge.sound {
                tape.break_here();
            }
            tape.raw(bytes);
        }
        tapes.push((format!("limit-{}", edge.name), tape));
    }
    tapes.push(("limit-table".to_string(), late_table(maker)));
    tapes
}

// Frames up to just so many bytes.
fn filled(maker: &mut Maker, size: usize) -> Tape {
    maker.set = [Set::Flat, Set::Random][maker.rng.below(2)];
    let contents = maker.contents();
    let mut tape = maker.begun(&contents);
    while size - tape.bytes.len() > LARGEST + 32 {
        tape.case(&maker.case(None));
    }
    while tape.bytes.len() < size {
        let left = size - tape.bytes.len();
        let mut frame = maker.case(None).frame;
        // cut or lengthened at its front, so that its side information stays
        frame.reverse();
        frame.resize(if left <= 403 { left - 3 } else { left / 2 - 3 }, 0x55);
        frame.reverse();
        tape.frame(&frame);
    }
    tape
}

// Configurations alone, so many that the last table passes the limit.
fn late_table(maker: &mut Maker) -> Tape {
    let (contents, order) = (maker.contents(), maker.shuffled());
    let mut tape = Tape::new();
    order[1..].iter().for_each(|table| tape.table(*table, &contents));
    while tape.room() >= 3 + contents[order[0]].len() {
        tape.configure(maker.configuration());
    }
    tape.break_here();
    tape.table(order[0], &contents);
    tape
}
