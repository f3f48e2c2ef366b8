//! The hits of `bench_threads shared` in plain Rust: shards that threads share, each a pool behind a `std::sync::Mutex` of its own.
//!
//! `plain SHARDS THREADS PAGES HITS`: THREADS threads make HITS hits each in SHARDS shards, which together have a frame for each of PAGES pages
//! (a power of two) of 4,096 bytes; all are resident. The sum of the threads' checksums is printed, and nanoseconds. A hit pins a page that is
//! drawn evenly, reads eight bytes of it, and unpins it. Each of the three calls takes the lock, as each is a turn of `SharedShards`; with the
//! word `once` after the numbers one lock is held for all three. With `alone` in place of THREADS one thread has the shards for itself, without
//! locks.
//!
//! A page is found by a `HashMap` with the fastest hash. Victims are found by a winner tree, which a hit leaves alone, as in the proved pool.

#[path = "../parts/mod.rs"]
mod parts;

use parts::hist::Page;
use parts::pool::{Contest, MixedState, Refusal, Slot, Winners};
use parts::rank::Rank;
use std::cell::RefCell;
use std::hint::black_box;
use std::sync::{Mutex, PoisonError};
use std::thread;
use std::time::{Duration, Instant};

const PAGE_SIZE: usize = 4096;

type Pool = parts::pool::Pool<MixedState, Lazy>;

type Number = [u8; 8];

/// A winner tree that learns of a pin only where the pinned page would be the victim, and of the unpin only then.
struct Lazy {
    winners: RefCell<Winners>,
    are_pinned: Vec<bool>,
}

impl Contest for Lazy {
    fn new(frames: usize) -> Lazy {
        Lazy { winners: RefCell::new(Winners::new(frames)), are_pinned: vec![false; frames] }
    }

    fn rank(&self, frame: u32) -> Rank {
        self.winners.borrow().rank(frame).staying(self.are_pinned[frame as usize])
    }

    fn set(&mut self, frame: u32, rank: Rank) {
        self.are_pinned[frame as usize] = rank.stays;
        self.winners.get_mut().set(frame, rank.staying(false));
    }

    fn hold(&mut self, frame: u32, stays: bool) {
        self.are_pinned[frame as usize] = stays;
        let winners = self.winners.get_mut();
        if !stays && winners.rank(frame).stays {
            winners.hold(frame, false);
        }
    }

    fn least(&self) -> Option<u32> {
        let mut winners = self.winners.borrow_mut();
        while let Some(frame) = winners.least() {
            if !self.are_pinned[frame as usize] {
                return Some(frame);
            }
            winners.hold(frame, true);
        }
        None
    }

    fn clear(&mut self) {
        self.are_pinned.fill(false);
        self.winners.get_mut().clear();
    }
}

fn pin(pool: &mut Pool, page: Page) -> Result<Slot, Refusal> {
    pool.pin(page, || Rank::of(page, None))
}

fn read(pool: &Pool, slot: Slot) -> Result<Number, Refusal> {
    if !pool.holds(slot) {
        return Err("the slot holds no page");
    }
    pool.read(slot, 0, 8)?.try_into().map_err(|_| "eight bytes are read")
}

fn unpin(pool: &mut Pool, slot: Slot) -> Result<(), Refusal> {
    if !pool.holds(slot) {
        return Err("the slot holds no page");
    }
    pool.unpin(slot);
    Ok(())
}

fn all_three(pool: &mut Pool, page: Page) -> Result<Number, Refusal> {
    let slot = pin(pool, page)?;
    let number = read(pool, slot)?;
    unpin(pool, slot)?;
    Ok(number)
}

/// What a thread makes its hits in.
trait Shards {
    fn count(&self) -> u64;
    fn number_in(&mut self, shard: usize, page: Page) -> Result<Number, Refusal>;
}

/// One thread has all shards for itself.
struct Alone(Vec<Pool>);

/// A shard that threads share. It has no line of memory in common with another one.
#[repr(align(128))]
struct Shared(Mutex<Pool>);

impl Shared {
    fn under_lock<T>(&self, call: impl FnOnce(&mut Pool) -> T) -> T {
        call(&mut self.0.lock().unwrap_or_else(PoisonError::into_inner))
    }
}

/// Each call is made under the lock of its shard.
#[derive(Clone, Copy)]
struct Locked<'a>(&'a [Shared]);

/// All three calls of a hit are made under one lock.
#[derive(Clone, Copy)]
struct LockedOnce<'a>(&'a [Shared]);

impl Shards for Alone {
    fn count(&self) -> u64 {
        self.0.len() as u64
    }

    fn number_in(&mut self, shard: usize, page: Page) -> Result<Number, Refusal> {
        all_three(&mut self.0[shard], page)
    }
}

impl Shards for Locked<'_> {
    fn count(&self) -> u64 {
        self.0.len() as u64
    }

    fn number_in(&mut self, shard: usize, page: Page) -> Result<Number, Refusal> {
        let shard = &self.0[shard];
        let slot = shard.under_lock(|pool| pin(pool, page))?;
        let number = shard.under_lock(|pool| read(pool, slot))?;
        shard.under_lock(|pool| unpin(pool, slot))?;
        Ok(number)
    }
}

impl Shards for LockedOnce<'_> {
    fn count(&self) -> u64 {
        self.0.len() as u64
    }

    fn number_in(&mut self, shard: usize, page: Page) -> Result<Number, Refusal> {
        self.0[shard].under_lock(|pool| all_three(pool, page))
    }
}

#[derive(Clone, Copy)]
struct Load {
    pages: u64,
    hits: u64,
}

/// A shard is full of the pages whose number is its own modulo the number of shards; its device has no others.
fn shard(number: u64, shards: u64, pages: u64) -> Pool {
    let frames = (pages / shards) as usize;
    let mut device = vec![0; frames * PAGE_SIZE];
    for (page, no) in device.chunks_exact_mut(PAGE_SIZE).zip((number..).step_by(shards as usize)) {
        page[..8].copy_from_slice(&no.to_le_bytes());
    }
    let mut pool = Pool::over(frames, PAGE_SIZE, device);
    for no in 0..frames as u64 {
        pool.load(Rank::of(Page { dev: 0, no }, None)).expect("the device has the page");
    }
    pool
}

/// The checksum of what a thread reads. It draws its pages from its own number on.
fn hit_often(mut shards: impl Shards, thread: u64, load: Load) -> Result<u64, Refusal> {
    let count = shards.count();
    let mut drawn = thread;
    let mut checksum = 0u64;
    for _ in 0..load.hits {
        drawn = drawn.wrapping_mul(6_364_136_223_846_793_005).wrapping_add(1_442_695_040_888_963_407);
        let no = drawn >> 48 & (load.pages - 1);
        let number = shards.number_in((no % count) as usize, Page { dev: 0, no: no / count })?;
        checksum = checksum.wrapping_mul(31).wrapping_add(u64::from_le_bytes(number));
    }
    Ok(checksum)
}

/// The threads 1 to this number; the last of them is the one that calls.
fn hit_together(shards: impl Shards + Copy + Send, threads: u64, load: Load) -> Result<u64, Refusal> {
    thread::scope(|scope| {
        let others: Vec<_> = (1..threads).map(|thread| scope.spawn(move || hit_often(shards, thread, load))).collect();
        let last = hit_often(shards, threads, load);
        others.into_iter().map(|one| one.join().expect("no thread panics")).fold(last, |sum, more| Ok(sum?.wrapping_add(more?)))
    })
}

fn timed(hit: impl FnOnce() -> Result<u64, Refusal>) -> (u64, Duration) {
    let start = Instant::now();
    let sum = hit().expect("every page is resident");
    (black_box(sum), start.elapsed())
}

fn main() {
    let words: Vec<String> = std::env::args().skip(1).collect();
    let words: Vec<&str> = words.iter().map(String::as_str).collect();
    let number = |word: &str| word.parse::<u64>().expect("a number");
    let [shards, threads, pages, hits, ref rest @ ..] = words[..] else { panic!("plain SHARDS THREADS PAGES HITS, and once") };
    let load = Load { pages: number(pages), hits: number(hits) };
    let pools: Vec<Pool> = (0..number(shards)).map(|at| shard(at, number(shards), load.pages)).collect();
    let (sum, spent) = if threads == "alone" {
        timed(|| hit_often(Alone(pools), 1, load))
    } else {
        let pools: Vec<Shared> = pools.into_iter().map(|pool| Shared(Mutex::new(pool))).collect();
        match rest {
            [] => timed(|| hit_together(Locked(&pools), number(threads), load)),
            ["once"] => timed(|| hit_together(LockedOnce(&pools), number(threads), load)),
            _ => panic!("once"),
        }
    };
    println!("{sum}\n{} ns", spent.as_nanos());
}
