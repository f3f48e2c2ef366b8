//! Prints schedules for `measure.py` whose lines name slots and frames from the answers to earlier lines: it plays them in the plain world.
//!
//!     loads pins ACCESSES FRAMES PAGES
//!     loads steady REPLICAS ROUNDS REFS EVERY PAGES
//!     loads ring REPLICAS PAGES
//!
//! - `pins`: of each access a page is drawn by Zipf, referenced, pinned and unpinned; of one in eight eight bytes are written while it is
//!   pinned, of another eight are read.
//! - `steady`: in each round a random replica references REFS pages, drawn by Zipf. After each EVERY rounds it offers its digests to
//!   another one, and all that follows is delivered between the two.
//! - `ring`: each replica references PAGES pages of its own. Then, after a comment line with the number of entries that are delivered, each
//!   offers its digests to the next in a ring, and all answers are delivered.

#[path = "parts/mod.rs"]
mod parts;

use parts::hist::Page;
use parts::pool::Refusal;
use parts::world::{Setup, WORKERS, World};
use std::env;
use std::io::{self, BufWriter, Write};

/// SplitMix64.
struct Draw(u64);

impl Draw {
    fn next(&mut self) -> u64 {
        self.0 = self.0.wrapping_add(0x9E37_79B9_7F4A_7C15);
        let mixed = (self.0 ^ self.0 >> 30).wrapping_mul(0xBF58_476D_1CE4_E5B9);
        let mixed = (mixed ^ mixed >> 27).wrapping_mul(0x94D0_49BB_1331_11EB);
        mixed ^ mixed >> 31
    }

    fn below(&mut self, end: u64) -> u64 {
        self.next() % end
    }

    /// From 0 to below `end`, where r occurs in proportion to 1 / (r + 1).
    fn zipf(&mut self, end: u64) -> u64 {
        let even = (self.next() >> 11) as f64 / (1u64 << 53) as f64;
        (end as f64).powf(even) as u64 - 1
    }

    /// The numbers below `end`, in a shuffled order.
    fn scattered(&mut self, end: u64) -> Vec<u64> {
        let mut numbers: Vec<u64> = (0..end).collect();
        for at in (1..numbers.len()).rev() {
            numbers.swap(at, self.below(at as u64 + 1) as usize);
        }
        numbers
    }
}

/// An error: an event is refused, or a line is not accepted.
enum Fault {
    Refused(Refusal),
    Write(io::Error),
}

impl From<Refusal> for Fault {
    fn from(why: Refusal) -> Fault {
        Fault::Refused(why)
    }
}

impl From<io::Error> for Fault {
    fn from(why: io::Error) -> Fault {
        Fault::Write(why)
    }
}

/// Plays events, and prints them.
struct Printer<W> {
    world: World,
    out: W,
    delivered: u64,
}

impl<W: Write> Printer<W> {
    fn new(setup: Setup, out: W) -> Printer<W> {
        Printer { world: World::new(setup), out, delivered: 0 }
    }

    fn refer(&mut self, i: usize, worker: usize, no: u64, time: u64) -> Result<(), Fault> {
        self.world.replica(i)?.refer(worker, Page { dev: 0, no }, time)?;
        writeln!(self.out, "ref {i} {worker} 0:{no} {time}")?;
        Ok(())
    }

    fn flush(&mut self, i: usize, worker: usize) -> Result<(), Fault> {
        self.world.replica(i)?.flush(worker)?;
        writeln!(self.out, "flush {i} {worker}")?;
        Ok(())
    }

    fn offer(&mut self, i: usize) -> Result<u64, Fault> {
        writeln!(self.out, "offer {i}")?;
        Ok(self.world.offer(i)?)
    }

    /// The frames that answer it, by their numbers.
    fn deliver(&mut self, j: usize, k: u64) -> Result<std::ops::Range<u64>, Fault> {
        writeln!(self.out, "deliver {j} {k}")?;
        let (count, first) = self.world.deliver(j, k)?;
        self.delivered += entries_of(&self.world.frames[k as usize - 1]);
        Ok(first..first + count)
    }
}

/// The number of entries of a frame.
fn entries_of(frame: &[u8]) -> u64 {
    if frame[4] == 1 { u64::from(u32::from_be_bytes(frame[20..24].try_into().expect("four bytes"))) } else { 0 }
}

fn pins(accesses: u64, setup: Setup, out: impl Write) -> Result<(), Fault> {
    let mut draw = Draw(1);
    let pages = draw.scattered(setup.pages);
    let mut printer = Printer::new(setup, out);
    for time in 0..accesses {
        let no = pages[draw.zipf(setup.pages) as usize];
        printer.refer(1, 1 + time as usize % WORKERS, no, time)?;
        let Printer { world, out, .. } = &mut printer;
        let node = &mut world.replica(1)?.node;
        let slot = node.pin(Page { dev: 0, no })?;
        let (index, generation) = (slot.index, slot.generation);
        writeln!(out, "pin 1 0:{no}")?;
        match draw.below(8) {
            0 => {
                node.pool.write(slot, 8, &time.to_be_bytes())?;
                writeln!(out, "put 1 {index}.{generation} 8 {time:016x}")?;
            }
            1 => writeln!(out, "get 1 {index}.{generation} 8 8")?,
            _ => {}
        }
        node.pool.unpin(slot);
        writeln!(out, "unpin 1 {index}.{generation}")?;
    }
    printer.out.flush()?;
    Ok(())
}

/// Delivers an offer of a replica to another one, and all that follows.
fn gossip<W: Write>(printer: &mut Printer<W>, from: usize, to: usize) -> Result<(), Fault> {
    let digests = printer.offer(from)?;
    for answer in printer.deliver(to, digests)? {
        for wanted in printer.deliver(from, answer)? {
            printer.deliver(to, wanted)?;
        }
    }
    Ok(())
}

fn steady(replicas: usize, rounds: u64, refs: u64, every: u64, pages: u64, out: impl Write) -> Result<(), Fault> {
    let mut draw = Draw(2);
    let numbers = draw.scattered(pages);
    let mut printer = Printer::new(Setup::of(replicas), out);
    for round in 0..rounds {
        let i = draw.below(replicas as u64) as usize;
        for n in 0..refs {
            let no = numbers[draw.zipf(pages) as usize];
            printer.refer(1 + i, 1 + n as usize % WORKERS, no, round * refs + n)?;
        }
        if (round + 1) % every == 0 {
            let other = (i + 1 + draw.below(replicas as u64 - 1) as usize) % replicas;
            gossip(&mut printer, 1 + i, 1 + other)?;
        }
    }
    printer.out.flush()?;
    Ok(())
}

/// All offers come first, then all digests are delivered, then all requests, then all entries: so each replica gets the pages that its two
/// neighbours referenced themselves.
fn round_in_ring<W: Write>(printer: &mut Printer<W>, replicas: usize) -> Result<(), Fault> {
    let after = |i: usize| 1 + i % replicas;
    let offers = (1..=replicas).map(|i| printer.offer(i)).collect::<Result<Vec<u64>, Fault>>()?;
    let mut entries = Vec::new();
    let mut requests = Vec::new();
    for (i, digests) in (1..).zip(offers) {
        let mut answers = printer.deliver(after(i), digests)?;
        requests.extend(answers.next_back().map(|request| (i, request)));
        entries.extend(answers.map(|frame| (i, frame)));
    }
    for (i, request) in requests {
        entries.extend(printer.deliver(i, request)?.map(|frame| (after(i), frame)));
    }
    for (j, frame) in entries {
        printer.deliver(j, frame)?;
    }
    Ok(())
}

fn ring(replicas: usize, pages: u64, mut out: impl Write) -> Result<(), Fault> {
    let mut draw = Draw(3);
    let mut printer = Printer::new(Setup::of(replicas), Vec::new());
    for i in 1..=replicas {
        for (time, no) in (1..).zip(draw.scattered(pages)) {
            printer.refer(i, 1, (i as u64 - 1) * pages + no, time)?;
        }
        printer.flush(i, 1)?;
    }
    out.write_all(&printer.out)?;
    printer.out.clear();
    round_in_ring(&mut printer, replicas)?;
    writeln!(out, "# {}", printer.delivered)?;
    out.write_all(&printer.out)?;
    out.flush()?;
    Ok(())
}

fn main() {
    let words: Vec<String> = env::args().skip(1).collect();
    let number = |i: usize| words.get(i).and_then(|word| word.parse::<u64>().ok()).expect("a number");
    let out = BufWriter::new(io::stdout().lock());
    let printed = match words.first().map(String::as_str) {
        Some("pins") => pins(number(1), Setup { frames: number(2) as usize, pages: number(3), ..Setup::of(1) }, out),
        Some("steady") => steady(number(1) as usize, number(2), number(3), number(4), number(5), out),
        Some("ring") => ring(number(1) as usize, number(2), out),
        _ => panic!("pins, steady or ring"),
    };
    match printed {
        Ok(()) => {}
        Err(Fault::Refused(why)) => panic!("refused {why}"),
        Err(Fault::Write(why)) => panic!("{why}"),
    }
}
