//! The counter of `bench_threads turn` behind a `std::sync::Mutex`, for the same measurements.
//!
//! `mutex THREADS TURNS`: THREADS threads add TURNS times each, and the total and the nanoseconds are printed. With the word `waits` after
//! these also the nanoseconds of the longest call, with `slow` the same of a counter that sleeps for a millisecond in each call. With `visits`
//! the threads add where the counter lies, without a call of it.

use std::hint::black_box;
use std::sync::Mutex;
use std::thread;
use std::time::{Duration, Instant};

enum Added {
    Total(u64),
    Overflow,
}

struct Counter {
    total: u64,
    sleeps: bool,
}

impl Counter {
    fn call(&mut self, more: u64) -> Added {
        if self.sleeps {
            thread::sleep(Duration::from_millis(1));
        }
        match self.total.checked_add(more) {
            Some(total) => {
                self.total = total;
                Added::Total(total)
            }
            None => Added::Overflow,
        }
    }
}

fn add_one(counter: &Mutex<Counter>) {
    let reply = counter.lock().expect("no thread panics").call(black_box(1));
    match black_box(reply) {
        Added::Total(total) => drop(black_box(total)),
        Added::Overflow => unreachable!(),
    }
}

fn visit(counter: &Mutex<Counter>) {
    let mut counter = counter.lock().expect("no thread panics");
    if let Some(total) = counter.total.checked_add(1) {
        counter.total = total;
    }
}

#[derive(Clone, Copy, PartialEq)]
enum Way {
    Calls,
    TimedCalls,
    Visits,
}

// Returns the time of the longest call, where calls are timed.
fn add_ones(counter: &Mutex<Counter>, turns: u64, way: Way) -> Duration {
    let mut longest = Duration::ZERO;
    for _ in 0..turns {
        match way {
            Way::Calls => add_one(counter),
            Way::Visits => visit(counter),
            Way::TimedCalls => {
                let start = Instant::now();
                add_one(counter);
                longest = longest.max(start.elapsed());
            }
        }
    }
    longest
}

// The total, and the time of the longest call.
fn count(threads: usize, turns: u64, sleeps: bool, way: Way) -> (u64, Duration) {
    let counter = Mutex::new(Counter { total: 0, sleeps });
    let longest = if threads == 1 {
        add_ones(&counter, turns, way)
    } else {
        thread::scope(|scope| {
            let add = || add_ones(&counter, turns, way);
            let all: Vec<_> = (0..threads).map(|_| scope.spawn(add)).collect();
            all.into_iter().map(|one| one.join().expect("no thread panics")).max().unwrap_or_default()
        })
    };
    (counter.into_inner().expect("no thread panics").total, longest)
}

fn main() {
    let words: Vec<String> = std::env::args().skip(1).collect();
    let words: Vec<&str> = words.iter().map(String::as_str).collect();
    let number = |word: &str| word.parse::<u64>().expect("a number");
    let [threads, turns, ref rest @ ..] = words[..] else { panic!("mutex THREADS TURNS, and waits, slow or visits") };
    let (threads, turns) = (number(threads), number(turns));
    let (sleeps, way) = match rest {
        [] => (false, Way::Calls),
        ["waits"] => (false, Way::TimedCalls),
        ["slow"] => (true, Way::TimedCalls),
        ["visits"] => (false, Way::Visits),
        _ => panic!("waits, slow or visits"),
    };
    let start = Instant::now();
    let (total, longest) = count(threads as usize, turns, sleeps, way);
    let spent = start.elapsed();
    let name = if threads == 1 { "thread" } else { "threads" };
    if way == Way::TimedCalls {
        println!("{threads} {name}: {total} in {} ns, {} ns", spent.as_nanos(), longest.as_nanos());
    } else {
        println!("{threads} {name}: {total} in {} ns", spent.as_nanos());
    }
}
