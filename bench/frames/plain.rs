//! The frames and digests of `benches frames` in plain Rust, for the same measurements.
//!
//! With no argument each is done once; with a number each is done that many times, and the nanoseconds are printed too; the stream is then
//! of 1000 frames.

#[path = "../parts/mod.rs"]
mod parts;

use parts::frames::{Decoder, decode, digests, encode};
use parts::hist::{Entry, Hist, Page, Stamp};
use parts::history::History;
use std::hint::black_box;
use std::time::Instant;

const FULL: u32 = 1000;
const MANY: u32 = 100_000;
const STREAM: usize = 1000;
const PIECES: [usize; 4] = [1, 64, 4_096, 65_536];

fn entries_of(pages: u32, apart: u32) -> Vec<Entry> {
    (0..pages)
        .map(|i| {
            let stamp = |time| Stamp { time, replica: 1 };
            let hist = Hist::twice(stamp(u64::from(i) + 7), stamp(u64::from(i))).expect("the later stamp is the last");
            Entry { page: Page { dev: 0, no: u64::from(i * apart) }, hist }
        })
        .collect()
}

fn check_sum(bytes: &[u8]) -> u64 {
    bytes.iter().fold(0u64, |sum, byte| sum.wrapping_mul(31).wrapping_add(u64::from(*byte)))
}

// The number of entries of a stream that is given in pieces of this many bytes.
fn feed_in_pieces(stream: &[u8], size: usize) -> usize {
    let mut decoder = Decoder::default();
    let mut count = 0;
    for piece in stream.chunks(size) {
        let mut rest = piece;
        while !rest.is_empty() {
            let (taken, frame) = decoder.feed(rest).expect("the stream is one of frames");
            count += frame.map_or(0, |frame| frame.entries.len());
            rest = &rest[taken..];
        }
    }
    count
}

fn main() {
    let asked = std::env::args().nth(1);
    let rounds: u64 = asked.as_ref().map_or(1, |word| word.parse().expect("how often each is done"));
    let entries = entries_of(FULL, 64);
    let mut history = History::new();
    for entry in entries_of(MANY, 1) {
        history.take(entry);
    }

    let start = Instant::now();
    let mut bytes = Vec::new();
    for _ in 0..rounds {
        bytes = encode(1, 0, black_box(&entries));
    }
    let encoding = start.elapsed();
    let start = Instant::now();
    let mut count = 0;
    for _ in 0..rounds {
        count += decode(black_box(&bytes)).expect("the frame is one of entries").entries.len();
    }
    let decoding = start.elapsed();
    let start = Instant::now();
    let mut first = [0; 32];
    for _ in 0..rounds {
        first = digests(black_box(&history))[0];
    }
    let summing = start.elapsed();

    println!("encode: {} bytes {}", bytes.len(), check_sum(&bytes));
    println!("decode: {count} entries");
    println!("digests: {}", check_sum(&first));
    if asked.is_some() {
        println!("{} {} {} ns", encoding.as_nanos(), decoding.as_nanos(), summing.as_nanos());
    }
    let stream = bytes.repeat(if asked.is_some() { STREAM } else { 1 });
    for size in PIECES {
        let start = Instant::now();
        let count = feed_in_pieces(black_box(&stream), size);
        let feeding = start.elapsed();
        println!("in pieces of {size}: {count} entries");
        if asked.is_some() {
            println!("{} ns", feeding.as_nanos());
        }
    }
}
