//! The workers of `bench_threads replica` in plain Rust, over one replica behind a `std::sync::Mutex`, for the same measurements.
//!
//! `plain WORKERS REFERENCES PAGES [history|node]`: WORKERS workers add REFERENCES references each, to PAGES pages, by buffers of 64.
//! With `history` the replica is a history, a map for each bucket. With `node` it also does the other work of a node: it marks the buckets
//! whose digests must be recomputed, and looks up each page among those in frames.

#[path = "../parts/mod.rs"]
mod parts;

use parts::hist::{Hist, Page, Stamp};
use parts::history::History;
use std::collections::HashMap;
use std::hint::black_box;
use std::sync::Mutex;
use std::time::Instant;

const BUFFER: usize = 64;
const HOTTEST: usize = 1_000;

#[derive(Clone, Copy)]
struct Reference {
    page: Page,
    stamp: Stamp,
}

#[derive(Clone, Copy)]
struct Load {
    references: u64,
    pages: u64,
}

fn next(drawn: u64) -> u64 {
    drawn.wrapping_mul(6_364_136_223_846_793_005).wrapping_add(1_442_695_040_888_963_407)
}

fn reference(load: Load, worker: u64, i: u64, drawn: u64) -> Reference {
    let no = (drawn >> 33) % load.pages;
    Reference { page: Page { dev: 0, no }, stamp: Stamp { time: i * 4 + worker, replica: 1 } }
}

trait Replica: Send {
    fn absorb(&mut self, batch: &[Reference]);
    fn history(&self) -> &History;
}

// A reference is compared with the horizon of a history. It is 0, which the compiler must not know.
fn new_history() -> History {
    let mut history = History::new();
    history.horizon = black_box(0);
    history
}

impl Replica for History {
    fn absorb(&mut self, batch: &[Reference]) {
        for seen in batch {
            self.see(seen.page, seen.stamp);
        }
    }

    fn history(&self) -> &History {
        self
    }
}

struct Node {
    history: History,
    changed: u64,
    frames: HashMap<Page, usize>,
    ranks: Vec<Hist>,
}

impl Node {
    fn new() -> Node {
        Node { history: new_history(), changed: 0, frames: HashMap::new(), ranks: Vec::new() }
    }
}

impl Replica for Node {
    fn absorb(&mut self, batch: &[Reference]) {
        for seen in batch {
            let Some(known) = self.history.see(seen.page, seen.stamp) else { continue };
            self.changed |= 1 << seen.page.bucket();
            if let Some(at) = self.frames.get(&seen.page) {
                self.ranks[*at] = known;
            }
        }
        black_box(self.changed);
    }

    fn history(&self) -> &History {
        &self.history
    }
}

fn flush(replica: &Mutex<impl Replica>, buffer: &mut Vec<Reference>) {
    let batch = buffer.clone();
    replica.lock().expect("no worker panics").absorb(black_box(&batch));
    buffer.clear();
}

fn bring(replica: &Mutex<impl Replica>, worker: u64, load: Load) {
    let mut buffer = Vec::with_capacity(BUFFER);
    let mut drawn = worker;
    for i in 0..load.references {
        drawn = next(drawn);
        if buffer.len() == BUFFER {
            flush(replica, &mut buffer);
        }
        buffer.push(reference(load, worker, i, drawn));
    }
    flush(replica, &mut buffer);
}

fn sum_of(history: &History) -> u64 {
    history.hottest(HOTTEST).iter().fold(0u64, |sum, page| sum.wrapping_mul(31).wrapping_add(page.no))
}

fn run(replica: impl Replica, workers: u64, load: Load) {
    let replica = Mutex::new(replica);
    let start = Instant::now();
    if workers == 1 {
        bring(&replica, 0, load);
    } else {
        std::thread::scope(|scope| {
            for worker in 0..workers {
                let replica = &replica;
                scope.spawn(move || bring(replica, worker, load));
            }
        });
    }
    let spent = start.elapsed();
    let replica = replica.into_inner().expect("no worker panics");
    println!("workers {workers}: {} in {} ns", sum_of(replica.history()), spent.as_nanos());
}

fn main() {
    let words: Vec<String> = std::env::args().skip(1).collect();
    let number = |i: usize| words[i].parse::<u64>().expect("a number");
    let load = Load { references: number(1), pages: number(2) };
    match words.get(3).map_or("history", String::as_str) {
        "history" => run(new_history(), number(0), load),
        "node" => run(Node::new(), number(0), load),
        _ => panic!("history or node"),
    }
}
