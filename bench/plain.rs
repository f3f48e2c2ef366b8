//! The same job as `warmplay play`, in plain Rust: the reference for docs/PERFORMANCE.md, not part of the product.
//!
//! It reads a schedule from standard input, answers each line, and writes its answers out before it reads more. A history is a map for
//! each bucket with a horizon, a pool is over one device in memory, and a frame is the bytes that are sent, as the product's are.
//! It has no rollback, and supports all lines but `restart`.
//!
//!     plain REPLICAS [FRAMES PAGES]
//!
//! FRAMES and PAGES are those of each replica's pool and of its device. Built by `bench/measure.py` with `rustc -O`.

#[path = "parts/mod.rs"]
mod parts;

use parts::hist::Page;
use parts::pool::{Refusal, Slot};
use parts::text::{LONGEST, Pieces, Words, put_hex, put_line, put_number, put_page, put_slot};
use parts::world::{Setup, World};
use std::env;
use std::io::{self, Write};

const OUTPUT: usize = 65_536;

/// A line without words or with a comment, or an event. Replicas, workers and frames are numbered from 1, and may be invalid. The bytes of a
/// `put` are stored beside it.
#[derive(Clone, Copy)]
enum Line {
    Nothing,
    Ref { worker: usize, page: Page, time: u64 },
    Flush { worker: usize },
    Horizon { time: u64 },
    Send { bucket: usize, after: Option<Page> },
    Offer,
    Deliver { frame: u64 },
    Pin { page: Page },
    Unpin { slot: Slot },
    Put { slot: Slot, at: usize },
    Get { slot: Slot, at: usize, len: usize },
    Victim,
    WarmStep,
    Warm { count: usize },
    Show,
}

/// The replica of a line, and its meaning; the bytes of a `put` are left in `bytes`. `None` where it is bad.
#[inline]
fn line_of(words: &mut Words, bytes: &mut Vec<u8>) -> Option<(usize, Line)> {
    const SHORT: u64 = u16::MAX as u64;
    const COUNT: u64 = u32::MAX as u64;
    let command = words.word();
    if matches!(command, [] | [b'#', ..]) {
        return Some((0, Line::Nothing));
    }
    let replica = words.number(SHORT)? as usize;
    let line = match command {
        b"ref" => Line::Ref { worker: words.number(SHORT)? as usize, page: words.page()?, time: words.number(u64::MAX)? },
        b"pin" => Line::Pin { page: words.page()? },
        b"unpin" => Line::Unpin { slot: words.slot()? },
        b"put" => {
            let (slot, at) = (words.slot()?, words.number(COUNT)? as usize);
            bytes.clear();
            words.hex(bytes)?;
            Line::Put { slot, at }
        }
        b"get" => Line::Get { slot: words.slot()?, at: words.number(COUNT)? as usize, len: words.number(COUNT)? as usize },
        b"flush" => Line::Flush { worker: words.number(SHORT)? as usize },
        b"horizon" => Line::Horizon { time: words.number(u64::MAX)? },
        b"send" => {
            let bucket = words.number(63)? as usize;
            let after = if words.is_done() { None } else { Some(words.page()?) };
            Line::Send { bucket, after }
        }
        b"offer" => Line::Offer,
        b"deliver" => Line::Deliver { frame: words.number(u64::MAX)? },
        b"victim" => Line::Victim,
        b"warmstep" => Line::WarmStep,
        b"warm" => Line::Warm { count: words.number(COUNT)? as usize },
        b"show" => Line::Show,
        _ => return None,
    };
    words.is_done().then_some((replica, line))
}

/// Plays an event, and prints its answer. Returns the fault where it is refused.
fn play(world: &mut World, number: usize, line: Line, bytes: &[u8], out: &mut Vec<u8>) -> Result<(), Refusal> {
    match line {
        Line::Nothing => {}
        Line::Ref { worker, page, time } => {
            world.replica(number)?.refer(worker, page, time)?;
            out.extend_from_slice(b"ok\n");
        }
        Line::Flush { worker } => {
            world.replica(number)?.flush(worker)?;
            out.extend_from_slice(b"ok\n");
        }
        Line::Send { bucket, after } => put_numbered(out, b"frame ", world.send(number, bucket, after)?),
        Line::Offer => put_numbered(out, b"frame ", world.offer(number)?),
        Line::Deliver { frame } => {
            let (count, first) = world.deliver(number, frame)?;
            out.extend_from_slice(b"took ");
            put_number(out, count);
            if count > 0 {
                out.extend_from_slice(b" from ");
                put_number(out, first);
            }
            out.push(b'\n');
        }
        Line::Pin { .. } | Line::Unpin { .. } | Line::Put { .. } | Line::Get { .. } => {
            play_slot(world, number, line, bytes, out)?;
        }
        _ => play_node(world, number, line, out)?,
    }
    Ok(())
}

/// An operation on a slot.
fn play_slot(world: &mut World, number: usize, line: Line, bytes: &[u8], out: &mut Vec<u8>) -> Result<(), Refusal> {
    let node = &mut world.replica(number)?.node;
    match line {
        Line::Pin { page } => {
            let slot = node.pin(page)?;
            out.extend_from_slice(b"slot ");
            put_slot(out, slot);
            out.push(b'\n');
            return Ok(());
        }
        Line::Unpin { slot } | Line::Put { slot, .. } | Line::Get { slot, .. } if !node.pool.holds(slot) => {
            return Err("13 StaleSlot");
        }
        Line::Unpin { slot } => node.pool.unpin(slot),
        Line::Put { slot, at } => node.pool.write(slot, at, bytes)?,
        Line::Get { slot, at, len } => {
            let read = node.pool.read(slot, at, len)?;
            out.extend_from_slice(if read.is_empty() { b"bytes" } else { b"bytes " });
            put_hex(out, read);
            out.push(b'\n');
            return Ok(());
        }
        _ => {}
    }
    out.extend_from_slice(b"ok\n");
    Ok(())
}

/// An operation on a replica as a whole.
fn play_node(world: &mut World, number: usize, line: Line, out: &mut Vec<u8>) -> Result<(), Refusal> {
    let node = &mut world.replica(number)?.node;
    match line {
        Line::Horizon { time } => {
            node.raise(time);
            put_numbered(out, b"horizon ", node.history.horizon);
        }
        Line::Victim => put_page_or_none(out, b"page ", node.pool.victim()),
        Line::WarmStep => put_page_or_none(out, b"loaded ", node.warm_step()?),
        Line::Warm { count } => {
            out.extend_from_slice(b"pages");
            for page in node.history.hottest(count) {
                out.push(b' ');
                put_page(out, page);
            }
            out.push(b'\n');
        }
        Line::Show => {
            for entry in node.history.in_order() {
                put_line(out, &entry);
            }
            put_numbered(out, b"end ", node.history.len() as u64);
        }
        _ => {}
    }
    Ok(())
}

fn put_numbered(out: &mut Vec<u8>, what: &[u8], number: u64) {
    out.extend_from_slice(what);
    put_number(out, number);
    out.push(b'\n');
}

fn put_page_or_none(out: &mut Vec<u8>, what: &[u8], page: Option<Page>) {
    match page {
        None => out.extend_from_slice(b"none"),
        Some(page) => {
            out.extend_from_slice(what);
            put_page(out, page);
        }
    }
    out.push(b'\n');
}

fn write_out(out: &mut Vec<u8>) -> io::Result<()> {
    io::stdout().lock().write_all(out)?;
    out.clear();
    Ok(())
}

fn setup() -> Option<Setup> {
    let mut words = env::args().skip(1);
    let setup = Setup::of(words.next()?.parse().ok()?);
    let Some(frames) = words.next() else { return Some(setup) };
    Some(Setup { frames: frames.parse().ok()?, pages: words.next()?.parse().ok()?, ..setup })
}

fn main() -> io::Result<()> {
    let mut world = World::new(setup().expect("plain REPLICAS [FRAMES PAGES]"));
    let mut pieces = Pieces::new(io::stdin().lock());
    let mut out = Vec::with_capacity(2 * OUTPUT);
    let mut bytes = Vec::new();
    let mut number = 0;
    while let Some(piece) = pieces.next()? {
        let mut rest = piece;
        while !rest.is_empty() {
            number += 1;
            let mut words = Words::new(rest);
            let line = line_of(&mut words, &mut bytes);
            let after = words.after_line();
            let is_short = rest.len() - after.len() <= LONGEST + 1;
            match line.filter(|_| is_short) {
                None => put_numbered(&mut out, b"bad line ", number),
                Some((_, Line::Nothing)) => {}
                Some((replica, line)) => {
                    if let Err(why) = play(&mut world, replica, line, &bytes, &mut out) {
                        out.extend_from_slice(b"refused ");
                        out.extend_from_slice(why.as_bytes());
                        out.push(b'\n');
                    }
                }
            }
            rest = after;
            if out.len() >= OUTPUT {
                write_out(&mut out)?;
            }
        }
        write_out(&mut out)?;
    }
    world.finish();
    Ok(())
}
