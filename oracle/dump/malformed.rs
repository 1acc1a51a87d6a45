// Recordings with a malformed field: each kind at each place.

use super::make::Maker;
use super::tables::Contents;
use super::tape::Tape;
use super::walk::SIZES;
use crate::records::Rng;

// Before all, among the tables, behind them, behind the configuration, behind frames, behind frames and a configuration.
const PLACES: usize = 6;

#[derive(Clone, Copy)]
enum Kind {
    UnknownTag,
    OverLong,
    TableSize,
    ConfigurationOf2,
    ConfigurationOf4,
    ConfigurationOfAny,
    TableTwice,
    HeaderCut,
    ContentCut,
}

const KINDS: [(Kind, &str); 9] = [
    (Kind::UnknownTag, "unknown-tag"),
    (Kind::OverLong, "over-long"),
    (Kind::TableSize, "table-size"),
    (Kind::ConfigurationOf2, "configuration-of-2"),
    (Kind::ConfigurationOf4, "configuration-of-4"),
    (Kind::ConfigurationOfAny, "configuration-of-any"),
    (Kind::TableTwice, "table-twice"),
    (Kind::HeaderCut, "header-cut"),
    (Kind::ContentCut, "content-cut"),
];

// What stands before the malformed field.
struct Front {
    tape: Tape,
    contents: Contents,
    // the tables that are there, and those that are not
    seen: Vec<usize>,
    unseen: Vec<usize>,
    // a frame may come
    open: bool,
}

pub fn all(maker: &mut Maker) -> Vec<(String, Tape)> {
    let mut tapes = Vec::new();
    for (kind, name) in KINDS {
        for place in 0..PLACES {
            tapes.push((format!("{}-{}", name, place), malformed(maker, kind, place)));
        }
    }
    for missing in 0..SIZES.len() {
        tapes.push((format!("frame-before-table-{}", missing), early_frame(maker, Some(missing))));
    }
    for at in 0..2 {
        tapes.push((format!("frame-before-configuration-{}", at), early_frame(maker, None)));
    }
    tapes
}

fn front(maker: &mut Maker, kind: Kind, place: usize) -> Front {
    let (contents, order) = (maker.contents(), maker.shuffled());
    // a table of another size is the first of its tag, where no frame asks for it
    let most = if matches!(kind, Kind::TableSize) { 4 } else { 5 };
    let count = [0, 1 + maker.rng.below(4), most, most, 5, 5][place];
    let (seen, unseen) = order.split_at(count);
    let mut tape = Tape::new();
    seen.iter().for_each(|table| tape.table(*table, &contents));
    if place == 3 {
        tape.configure(maker.configuration());
    }
    if place >= 4 {
        let count = 1 + maker.rng.below(5);
        maker.frames(&mut tape, None, count);
    }
    if place == 5 {
        tape.configure(maker.configuration());
    }
    Front { tape, seen: seen.to_vec(), unseen: unseen.to_vec(), contents, open: place >= 3 }
}

// A tag and a content that may stand behind the front.
fn fitting(maker: &mut Maker, front: &Front) -> (u8, Vec<u8>) {
    match maker.rng.below(3) {
        0 => (0x01, maker.configuration().to_vec()),
        _ if front.open => (0x02, maker.case(None).frame),
        _ => match front.unseen.first() {
            Some(table) => (0x10 + *table as u8, front.contents[*table].clone()),
            None => (0x01, maker.configuration().to_vec()),
        },
    }
}

fn unknown(rng: &mut Rng) -> u8 {
    let near = [0x00, 0x03, 0x0f, 0x15, 0x20, 0x21, 0x81, 0x82, 0x90, 0xff];
    let any = rng.next() as u8;
    match any {
        0x01 | 0x02 | 0x10..=0x14 => near[rng.below(near.len())],
        _ if rng.below(2) == 0 => near[rng.below(near.len())],
        _ => any,
    }
}

fn malformed(maker: &mut Maker, kind: Kind, place: usize) -> Tape {
    let mut front = front(maker, kind, place);
    let (tag, mut content) = fitting(maker, &front);
    let rng = &mut maker.rng;
    match kind {
        Kind::UnknownTag => {
            content.truncate(rng.below(content.len() + 1));
            front.tape.break_with(unknown(rng), &content);
        }
        Kind::OverLong => {
            content.resize(4_097 + [0, 0, rng.below(9_000)][rng.below(3)], 0x2a);
            front.tape.break_with(if front.open { 0x02 } else { tag }, &content);
        }
        Kind::TableSize => {
            let table = front.unseen.first().copied().unwrap_or(rng.below(5));
            let size = SIZES[table];
            let sizes = [size - 1, size + 1, size - 2, size + 2, 0, SIZES[(table + 3) % 5]];
            let mut content = front.contents[table].clone();
            content.resize(sizes[rng.below(sizes.len())], 0);
            front.tape.break_with(0x10 + table as u8, &content);
        }
        Kind::ConfigurationOf2 => front.tape.break_with(0x01, &[0, 0]),
        Kind::ConfigurationOf4 => front.tape.break_with(0x01, &[0, 0, 0, 0]),
        Kind::ConfigurationOfAny => {
            let size = [0, 1, 5, 20, 259, 4_096][rng.below(6)];
            front.tape.break_with(0x01, &vec![0; size]);
        }
        Kind::TableTwice => {
            if front.seen.is_empty() {
                let table = front.unseen.remove(0);
                front.tape.table(table, &front.contents);
                front.seen.push(table);
            }
            let table = front.seen[rng.below(front.seen.len())];
            let mut content = front.contents[table].clone();
            let at = rng.below(content.len());
            content[at] ^= rng.below(2) as u8;
            front.tape.break_with(0x10 + table as u8, &content);
        }
        Kind::HeaderCut | Kind::ContentCut => {
            let from = front.tape.bytes.len();
            front.tape.break_with(tag, &content);
            let left = match kind {
                Kind::HeaderCut => 1 + rng.below(2),
                _ => 3 + [0, content.len() - 1, rng.below(content.len())][rng.below(3)],
            };
            front.tape.bytes.truncate(from + left);
            return front.tape;
        }
    }
    behind(maker, front)
}

// A frame where all but one of what it needs is there.
fn early_frame(maker: &mut Maker, missing: Option<usize>) -> Tape {
    let contents = maker.contents();
    let mut tape = Tape::new();
    let mut order = maker.shuffled();
    order.retain(|table| Some(*table) != missing);
    let at = maker.rng.below(order.len() + 1);
    for (k, table) in order.iter().enumerate() {
        if k == at && missing.is_some() {
            tape.configure(maker.configuration());
        }
        tape.table(*table, &contents);
    }
    if at == order.len() && missing.is_some() {
        tape.configure(maker.configuration());
    }
    tape.break_here();
    tape.frame(&maker.case(None).frame);
    behind(maker, Front { tape, contents, seen: order, unseen: missing.into_iter().collect(), open: false })
}

// What would be read, were the malformed field taken or passed over.
fn behind(maker: &mut Maker, mut front: Front) -> Tape {
    front.unseen.iter().for_each(|table| front.tape.table(*table, &front.contents));
    let count = 1 + maker.rng.below(4);
    maker.frames(&mut front.tape, None, count);
    front.tape
}
