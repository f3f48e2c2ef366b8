//! The same job as `warmplay threads`, in plain Rust: a reference, not part of the product.
//!
//!     plain FILE REPLICAS WORKERS BUFFER
//!
//! It reads the schedule whole, has a thread for each worker of each replica, and a Mutex around each replica's history, a map for each
//! bucket. After all have ended, every replica sends every bucket as bytes, which are shared, to every other over a channel, and a loop in
//! a thread of its own receives them. It prints what `warmplay threads` prints. Built by `measure.py` with `rustc -O`.

#[path = "../parts/mod.rs"]
mod parts;

use parts::frames::{decode, encode};
use parts::hist::{Page, Stamp};
use parts::history::{BUCKETS, History};
use parts::text::{LONGEST, Words, put_line, put_number};
use std::env;
use std::fs;
use std::io::{self, Write};
use std::process;
use std::sync::mpsc::{Receiver, Sender, channel};
use std::sync::{Arc, Mutex};
use std::thread;

const MOST_ENTRIES: usize = 1000;
const MOST_MAIL: usize = 1_000_000;
const OUTPUT: usize = 65_536;

// A request to a worker: a reference, or a flush.
#[derive(Clone, Copy)]
enum Ask {
    Refer(Page, u64),
    Flush,
}

enum Mail {
    Bytes(Arc<[u8]>),
    Stop,
}

// The request of a line, with its worker and replica, or nothing; `None` where it is bad.
fn asked(words: &mut Words, replicas: usize, workers: usize) -> Option<Option<(usize, usize, Ask)>> {
    let command = words.word();
    if matches!(command, [] | [b'#', ..]) {
        return Some(None);
    }
    let i = words.number(replicas as u64)? as usize;
    let w = words.number(workers as u64)? as usize;
    if i == 0 || w == 0 {
        return None;
    }
    let ask = match command {
        b"ref" => Ask::Refer(words.page()?, words.number(u64::MAX)?),
        b"flush" => Ask::Flush,
        _ => return None,
    };
    words.is_done().then_some(Some((i, w, ask)))
}

// The lists of all workers of all replicas. `Err` with the number of a line that is bad.
fn lists_of(text: &[u8], replicas: usize, workers: usize) -> Result<Vec<Vec<Vec<Ask>>>, usize> {
    let mut lists = vec![vec![Vec::new(); workers]; replicas];
    let mut rest = text;
    let mut number = 0;
    while !rest.is_empty() {
        number += 1;
        let mut words = Words::new(rest);
        let ask = asked(&mut words, replicas, workers);
        let after = words.after_line();
        if rest.len() - after.len() > LONGEST + 1 {
            return Err(number);
        }
        if let Some((i, w, ask)) = ask.ok_or(number)? {
            lists[i - 1][w - 1].push(ask);
        }
        rest = after;
    }
    Ok(lists)
}

fn flush(buffer: &mut Vec<(Page, Stamp)>, replica: &Mutex<History>) {
    let mut history = replica.lock().unwrap();
    for (page, stamp) in buffer.drain(..) {
        history.see(page, stamp);
    }
}

fn work(asks: &[Ask], number: u16, replica: &Mutex<History>, cap: usize) {
    let mut buffer = Vec::with_capacity(cap);
    for ask in asks {
        match *ask {
            Ask::Refer(page, time) => {
                if buffer.len() == cap {
                    flush(&mut buffer, replica);
                }
                buffer.push((page, Stamp { time, replica: number }));
            }
            Ask::Flush => flush(&mut buffer, replica),
        }
    }
    flush(&mut buffer, replica);
}

// A bucket as frames.
fn frames(history: &History, number: u16, bucket: usize) -> Vec<Arc<[u8]>> {
    let entries: Vec<_> = history.bucket(bucket).collect();
    entries.chunks(MOST_ENTRIES).map(|piece| encode(number, 0, piece).into()).collect()
}

fn send_all(replica: &Mutex<History>, number: u16, boxes: &[Sender<Mail>]) {
    for bucket in 0..BUCKETS {
        let frames = frames(&replica.lock().unwrap(), number, bucket);
        for frame in frames {
            for sender in boxes {
                sender.send(Mail::Bytes(Arc::clone(&frame))).unwrap();
            }
        }
    }
    for sender in boxes {
        sender.send(Mail::Stop).unwrap();
    }
}

fn hear_all(replica: &Mutex<History>, receiver: Receiver<Mail>, mut stops: usize) {
    for item in receiver.iter().take(MOST_MAIL) {
        match item {
            Mail::Bytes(bytes) => {
                let frame = decode(&bytes).expect("a frame of entries");
                let mut history = replica.lock().unwrap();
                for entry in frame.entries {
                    history.take(entry);
                }
            }
            Mail::Stop => stops -= 1,
        }
        if stops == 0 {
            return;
        }
    }
}

fn exchange(replicas: &[Mutex<History>]) {
    let (senders, receivers): (Vec<_>, Vec<_>) = replicas.iter().map(|_| channel()).unzip();
    thread::scope(|scope| {
        for (at, receiver) in receivers.into_iter().enumerate() {
            let others: Vec<Sender<Mail>> =
                senders.iter().enumerate().filter(|(k, _)| *k != at).map(|(_, sender)| sender.clone()).collect();
            scope.spawn(move || send_all(&replicas[at], at as u16 + 1, &others));
            if replicas.len() > 1 {
                scope.spawn(move || hear_all(&replicas[at], receiver, replicas.len() - 1));
            }
        }
    });
}

fn print_all(histories: &[Mutex<History>]) -> io::Result<()> {
    let mut stdout = io::stdout().lock();
    let mut out = Vec::with_capacity(2 * OUTPUT);
    for (at, history) in histories.iter().enumerate() {
        let history = history.lock().unwrap();
        out.extend_from_slice(b"replica ");
        put_number(&mut out, at as u64 + 1);
        out.push(b'\n');
        for entry in history.in_order() {
            put_line(&mut out, &entry);
            if out.len() >= OUTPUT {
                stdout.write_all(&out)?;
                out.clear();
            }
        }
        out.extend_from_slice(b"end ");
        put_number(&mut out, history.len() as u64);
        out.push(b'\n');
    }
    stdout.write_all(&out)
}

fn main() -> io::Result<()> {
    let words: Vec<String> = env::args().collect();
    let [replicas, workers, cap] = [2, 3, 4].map(|at: usize| words[at].parse::<usize>().unwrap());
    let mut text = fs::read(&words[1])?;
    if text.last().is_some_and(|byte| *byte != b'\n') {
        text.push(b'\n');
    }
    let lists = lists_of(&text, replicas, workers).unwrap_or_else(|number| {
        eprintln!("plain: BadLine {number}");
        process::exit(1);
    });
    let histories: Vec<Mutex<History>> = (0..replicas).map(|_| Mutex::new(History::new())).collect();
    thread::scope(|scope| {
        for (at, (history, lists)) in histories.iter().zip(&lists).enumerate() {
            for list in lists {
                scope.spawn(move || work(list, at as u16 + 1, history, cap));
            }
        }
    });
    exchange(&histories);
    print_all(&histories)
}
