//! The dumps of `benches files` in plain Rust, for the same measurements.
//!
//! With no argument the history has 1,000 pages; with a number it has that many, and the nanoseconds are printed too.

#[path = "../parts/mod.rs"]
mod parts;

use parts::frames::{decode, digests, encode, header};
use parts::hist::{Entry, Hist, Page, Stamp};
use parts::history::{BUCKETS, History};
use std::hint::black_box;
use std::io::{self, BufReader, Read, Write};
use std::time::Instant;

const FEW: u64 = 1_000;
const MOST: usize = 1_000;
const HEADER: usize = 20;
const TABLE: usize = 32 * BUCKETS;
const READ_SIZE: usize = 65_536;

fn history_of(pages: u64) -> History {
    let mut history = History::new();
    for no in 0..pages {
        let stamp = |time| Stamp { time, replica: 1 };
        let hist = Hist::twice(stamp(no + 7), stamp(no)).expect("the later stamp is the last");
        history.take(Entry { page: Page { dev: 0, no }, hist });
    }
    history
}

fn write_dump(writer: &mut impl Write, sender: u16, history: &History) -> io::Result<()> {
    let mut piece = Vec::with_capacity(MOST);
    for number in 0..BUCKETS {
        let mut left = history.bucket(number);
        loop {
            piece.clear();
            piece.extend(left.by_ref().take(MOST));
            if piece.is_empty() {
                break;
            }
            writer.write_all(&encode(sender, history.horizon, &piece))?;
        }
    }
    writer.write_all(&header(2, sender, history.horizon, TABLE))?;
    writer.write_all(digests(history).as_flattened())?;
    writer.flush()
}

fn read_dump(reader: impl Read) -> Option<History> {
    let mut reader = BufReader::with_capacity(READ_SIZE, reader);
    let mut history = History::new();
    let mut frame = Vec::new();
    loop {
        frame.resize(HEADER, 0);
        reader.read_exact(&mut frame).ok()?;
        let len = u32::from_be_bytes(frame[HEADER - 4..].try_into().ok()?) as usize;
        if len > 4 + 31 * MOST {
            return None;
        }
        frame.resize(HEADER + len, 0);
        reader.read_exact(&mut frame[HEADER..]).ok()?;
        if frame[4] == 2 {
            break;
        }
        let message = decode(&frame)?;
        history.raise(message.horizon);
        history.take_all(&message.entries, |_, _| ());
    }
    let is_end = reader.read(&mut [0]).ok()? == 0;
    (is_end && digests(&history).as_flattened() == &frame[HEADER..]).then_some(history)
}

fn check_sum(bytes: &[u8]) -> u64 {
    bytes.iter().fold(0u64, |sum, byte| sum.wrapping_mul(31).wrapping_add(u64::from(*byte)))
}

fn main() {
    let asked = std::env::args().nth(1);
    let pages = asked.as_ref().map_or(FEW, |word| word.parse().expect("how many pages the dump has"));
    let history = history_of(pages);

    let start = Instant::now();
    let mut text = Vec::new();
    write_dump(&mut text, 1, black_box(&history)).expect("memory takes all bytes");
    let writing = start.elapsed();
    let start = Instant::now();
    let restored = read_dump(black_box(text.as_slice())).expect("what was written is a dump");
    let reading = start.elapsed();

    println!("dump: {} bytes {}", text.len(), check_sum(&text));
    println!("restored: {} pages", restored.len());
    if asked.is_some() {
        println!("{} {} ns", writing.as_nanos(), reading.as_nanos());
    }
}
