// The comparison program: makes cases, runs the Rust of lc3-codec on them and writes each case with the Rust's answer.
//   oracle MODULE SEED COUNT   the systematic cases and COUNT random ones, made from SEED
//   oracle MODULE --sample     a small fixed set, the same on every machine
//   oracle recording FILE...   every frame of the recordings, as the Rust reads it, and written back as it was

mod cases {
    pub mod buffer_reader;
    pub mod buffer_writer;
    pub mod estimate;
    pub mod floats;
    pub mod gain_search;
    pub mod quantiser;
    pub mod range_decoder;
    pub mod range_encoder;
    pub mod recording;
    pub mod rows;
    pub mod side_info;
    pub mod spectral_quantization;
}
mod lc3;
mod records;

use cases::{buffer_reader, buffer_writer, range_decoder, range_encoder, recording, side_info, spectral_quantization};
// the six files name these from the crate's root
use lc3::{common, encoder, tables};
use records::Records;

struct Module {
    name: &'static str,
    run: fn(&mut Records, u64, usize),
    sample: fn(&mut Records),
}

// A program of one module alone is built sooner: `only` is its name, and else "all".
const MODULES: &[Module] = &[
    #[cfg(any(only = "all", only = "buffer_reader"))]
    Module { name: "buffer_reader", run: buffer_reader::run, sample: buffer_reader::sample },
    #[cfg(any(only = "all", only = "buffer_writer"))]
    Module { name: "buffer_writer", run: buffer_writer::run, sample: buffer_writer::sample },
    #[cfg(any(only = "all", only = "side_info"))]
    Module { name: "side_info", run: side_info::run, sample: side_info::sample },
    #[cfg(any(only = "all", only = "range_decoder"))]
    Module { name: "range_decoder", run: range_decoder::run, sample: range_decoder::sample },
    #[cfg(any(only = "all", only = "range_encoder"))]
    Module { name: "range_encoder", run: range_encoder::run, sample: range_encoder::sample },
    #[cfg(any(only = "all", only = "spectral_quantization"))]
    Module { name: "spectral_quantization", run: spectral_quantization::run, sample: spectral_quantization::sample },
];

fn main() {
    records::quiet_panics();
    let words: Vec<String> = std::env::args().skip(1).collect();
    let (name, rest) = words.split_first().unwrap_or_else(|| usage());
    let mut out = Records::to_stdout();
    if cfg!(only = "all") && name == "recording" && !rest.is_empty() {
        let frames = recording::run(&mut out, rest);
        return out.finish(&format!("recording, {} frames of {} files", frames, rest.len()));
    }
    let module = MODULES.iter().find(|m| name == m.name).unwrap_or_else(|| usage());
    match rest {
        [only] if only == "--sample" => (module.sample)(&mut out),
        [seed, count] => match (seed.parse(), count.parse()) {
            (Ok(seed), Ok(count)) => (module.run)(&mut out, seed, count),
            _ => usage(),
        },
        _ => usage(),
    }
    out.finish(&words.join(" "));
}

fn usage() -> ! {
    let names: Vec<&str> = MODULES.iter().map(|m| m.name).collect();
    eprintln!(
        "usage: oracle MODULE SEED COUNT | oracle MODULE --sample | oracle recording FILE...; MODULE is one of: {}",
        names.join(" ")
    );
    std::process::exit(2)
}
