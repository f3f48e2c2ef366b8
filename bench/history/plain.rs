//! The histories of `benches history` in plain Rust, as a map for each bucket and a horizon, for the same measurements.
//!
//! Prints the results and the nanoseconds.
//!
//! A raise of the horizon is measured over a history in which each page has one stamp: page `scattered(i, PAGES)` that of the time
//! PAGES + i. `benches history PAGES` must print, after all other lines and each for a copy of its own, the checksum of the history
//! afterwards, and the nanoseconds of the raise only, without the copy, of
//! - `raise, none dropped`: to the time PAGES, a pass that finds nothing to drop;
//! - `raise, half dropped`: to PAGES + PAGES / 2;
//! - `raise, all dropped`: to 2 * PAGES.

#[path = "../parts/mod.rs"]
mod parts;

use parts::hist::{Entry, Hist, Page, Stamp};
use parts::history::History;
use std::hint::black_box;
use std::time::{Duration, Instant};

const BATCH: usize = 64;
const SMALL: u64 = 1_000;

#[derive(Clone, Copy)]
struct Reference {
    page: Page,
    stamp: Stamp,
}

fn next(drawn: u64) -> u64 {
    drawn.wrapping_mul(6_364_136_223_846_793_005).wrapping_add(1_442_695_040_888_963_407)
}

fn scattered(i: u64, pages: u64) -> Page {
    Page { dev: 0, no: i.wrapping_mul(7919) % pages }
}

fn zipf_page(drawn: u64, pages: u64) -> Page {
    let octaves = match pages {
        0..5_000 => 10,
        5_000..50_000 => 14,
        50_000..500_000 => 17,
        _ => 20,
    };
    let below = 1u64 << ((drawn >> 32) % octaves);
    scattered(below + (drawn >> 40) % below, pages)
}

#[inline(never)]
fn absorb(history: &mut History, batch: &[Reference]) {
    for seen in batch {
        history.see(seen.page, seen.stamp);
    }
}

#[inline(never)]
fn join(history: &mut History, entries: impl Iterator<Item = Entry>) {
    for entry in entries {
        history.take(entry);
    }
}

fn sum_of(history: &History) -> u64 {
    let mut sum = 0u64;
    for Entry { page, hist } in history.in_order() {
        sum = sum.wrapping_mul(31).wrapping_add(page.no);
        if !hist.is_twice() {
            sum = sum.wrapping_add(hist.last().time);
        }
    }
    sum
}

fn print_timed(what: &str, made: u64, spent: Duration) {
    println!("{what}: {made}");
    println!("{what}: {} ns", spent.as_nanos());
}

fn timed<T>(work: impl FnOnce() -> T) -> (T, Duration) {
    let start = Instant::now();
    let made = black_box(work());
    (made, start.elapsed())
}

fn absorbed(what: &str, all: &[Reference]) -> History {
    let mut history = History::new();
    let ((), spent) = timed(|| all.chunks(BATCH).for_each(|batch| absorb(&mut history, batch)));
    print_timed(what, sum_of(&history), spent);
    history
}

// A history of all pages, raised to a time.
fn raised(what: &str, whole: &History, time: u64) {
    let mut history = whole.clone();
    let (_, spent) = timed(|| history.raise(time));
    print_timed(what, sum_of(&history), spent);
}

fn raises(each: &[Reference], pages: u64) {
    let mut whole = History::new();
    for seen in each {
        whole.see(seen.page, Stamp { time: pages + seen.stamp.time, ..seen.stamp });
    }
    raised("raise, none dropped", &whole, pages);
    raised("raise, half dropped", &whole, pages + pages / 2);
    raised("raise, all dropped", &whole, 2 * pages);
}

fn main() {
    let pages: u64 = std::env::args().nth(1).map_or(1_000, |word| word.parse().expect("the number of pages"));
    let stamp = |time| Stamp { time, replica: 1 };
    let mut drawn = 1;
    let zipf: Vec<Reference> = (0..pages)
        .map(|time| {
            drawn = next(drawn);
            Reference { page: zipf_page(drawn, pages), stamp: stamp(time) }
        })
        .collect();
    let each: Vec<Reference> =
        (0..pages).map(|time| Reference { page: scattered(time, pages), stamp: stamp(time) }).collect();
    let mut drawn = 7;
    let more: Vec<Entry> = (0..SMALL)
        .map(|time| {
            drawn = next(drawn);
            Entry { page: scattered(drawn >> 33, pages), hist: Hist::once(stamp(time)) }
        })
        .collect();
    drop(absorbed("absorb by Zipf's law", &zipf));
    let mut large = absorbed("absorb new pages", &each);
    let ((), spent) = timed(|| join(&mut large, more.iter().copied()));
    print_timed("join 1,000 entries", sum_of(&large), spent);
    let (copied, spent) = timed(|| large.clone());
    print_timed("copy", sum_of(&copied), spent);
    let ((), spent) = timed(|| join(&mut large, copied.entries()));
    print_timed("join all, known", sum_of(&large), spent);
    let mut empty = History::new();
    let ((), spent) = timed(|| join(&mut empty, large.entries()));
    print_timed("join all, new", sum_of(&empty), spent);
    let (sum, spent) = timed(|| sum_of(black_box(&large)));
    print_timed("go over all", sum, spent);
    let (found, spent) = timed(|| {
        let mut drawn = 11;
        (0..pages)
            .filter(|_| {
                drawn = next(drawn);
                large.get(scattered(drawn >> 33, pages)).is_some()
            })
            .count()
    });
    print_timed("look up", found as u64, spent);
    raises(&each, pages);
}
