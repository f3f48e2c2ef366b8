//! The visits and misses of `benches pool` in plain Rust, over a pool with a `HashMap` for its index.
//!
//! With no argument 1,000 visits are made; with a number that many, and the nanoseconds are printed too; with `misses` and a
//! number that many pins of pages that are in no frame; with `empty` a full pool is emptied, and the nanoseconds are printed; with `strides`
//! pages are only found in the map, by the distance of their numbers. The map has std's hash, or, with a further word `mixed`,
//! one that multiplies, as that of the proved pool's index does. The victim is found by a winner tree, as in the
//! proved pool, or, with a further word `ordered`, by a `BTreeSet` of ranks.

#[path = "../parts/mod.rs"]
mod parts;

use parts::hist::{Hist, Page, Stamp};
use parts::pool::{Contest, MixedState, Pool, Refusal, Winners};
use parts::rank::Rank;
use std::collections::{BTreeMap, BTreeSet, HashMap};
use std::hash::{BuildHasher, RandomState};
use std::hint::black_box;
use std::mem;
use std::time::{Duration, Instant};

const FRAMES: u32 = 65_536;
// As many pages as there are frames.
const PAGES: u64 = FRAMES as u64;
const PAGE_SIZE: usize = 64;

type History = BTreeMap<Page, Hist>;

fn rank_of(history: &History, page: Page) -> Rank {
    Rank::of(page, history.get(&page).copied())
}

/// The ranks in order.
struct Ordered {
    ranks: Vec<Rank>,
    order: BTreeSet<(Rank, u32)>,
}

impl Contest for Ordered {
    fn new(frames: usize) -> Ordered {
        Ordered { ranks: vec![Rank::EMPTY; frames], order: BTreeSet::new() }
    }

    fn rank(&self, frame: u32) -> Rank {
        self.ranks[frame as usize]
    }

    fn set(&mut self, frame: u32, rank: Rank) {
        let old = mem::replace(&mut self.ranks[frame as usize], rank);
        if old == rank {
            return;
        }
        if !old.stays {
            self.order.remove(&(old, frame));
        }
        if !rank.stays {
            self.order.insert((rank, frame));
        }
    }

    fn least(&self) -> Option<u32> {
        self.order.first().map(|(_, frame)| *frame)
    }

    fn clear(&mut self) {
        self.ranks.fill(Rank::EMPTY);
        self.order.clear();
    }
}

/// A pool over a device of this many pages, each of which is filled with the lowest byte of its number, or with zeros.
fn opened<H: BuildHasher + Default, C: Contest>(pages: u64, numbered: bool) -> Pool<H, C> {
    let byte = |no: u64| if numbered { no as u8 } else { 0 };
    Pool::over(FRAMES as usize, PAGE_SIZE, (0..pages).flat_map(|no| [byte(no); PAGE_SIZE]).collect())
}

/// Reads eight bytes of a page, writes these in their place where there are some, and returns the first that was read.
fn visit<H: BuildHasher + Default, C: Contest>(
    pool: &mut Pool<H, C>,
    page: Page,
    history: &History,
    bytes: Option<[u8; 8]>,
) -> Result<u8, Refusal> {
    let slot = pool.pin(page, || rank_of(history, page))?;
    debug_assert!(pool.holds(slot));
    let first = pool.read(slot, 0, 8)?[0];
    if let Some(bytes) = bytes {
        pool.write(slot, 0, &bytes)?;
    }
    pool.unpin(slot);
    Ok(first)
}

/// Makes this many visits to a pool with every page in a frame, and returns the checksum of the bytes read, and the time it took.
fn visit_often<H: BuildHasher + Default, C: Contest>(visits: u32) -> Result<(u64, Duration), Refusal> {
    let mut pool = opened::<H, C>(PAGES, false);
    let history = History::new();
    for no in 0..PAGES {
        pool.load(rank_of(&history, Page { dev: 0, no }))?;
    }
    let pool = black_box(&mut pool);
    let start = Instant::now();
    let mut drawn = 1u64;
    let mut sum = 0u64;
    for _ in 0..visits {
        drawn = drawn.wrapping_mul(6_364_136_223_846_793_005).wrapping_add(1_442_695_040_888_963_407);
        let no = drawn >> 48;
        let byte = visit(pool, Page { dev: 0, no }, &history, Some([(drawn >> 40) as u8; 8]))?;
        sum = sum.wrapping_mul(31).wrapping_add(u64::from(byte));
    }
    Ok((sum, start.elapsed()))
}

/// Pins this many pages that are in no frame. Each page has two references, so that ranks rise with the page numbers; consecutive
/// pages are far apart in the frames.
fn miss_often<H: BuildHasher + Default, C: Contest>(misses: u32) -> Result<(u64, Duration), Refusal> {
    let pages = PAGES + u64::from(misses);
    let stamp = |time: u64| Stamp { time, replica: 1 };
    let seen = |no: u64| Hist::twice(stamp(no + (1 << 32)), stamp(no)).expect("the later stamp is the last");
    let mut history = History::new();
    for no in 0..pages {
        history.insert(Page { dev: 0, no }, seen(no));
    }
    let mut pool = opened::<H, C>(pages, true);
    for frame in 0..PAGES {
        let no = frame * 40_503 % PAGES;
        pool.load(rank_of(&history, Page { dev: 0, no }))?;
    }
    let pool = black_box(&mut pool);
    let start = Instant::now();
    let mut sum = 0u64;
    for no in PAGES..pages {
        let byte = visit(pool, Page { dev: 0, no }, &history, None)?;
        sum = sum.wrapping_mul(31).wrapping_add(u64::from(byte));
    }
    Ok((sum, start.elapsed()))
}

/// The time to empty a pool in which each frame holds a page.
fn emptied<H: BuildHasher + Default, C: Contest>() -> Result<(u64, Duration), Refusal> {
    let mut pool = opened::<H, C>(PAGES, false);
    let history = History::new();
    for no in 0..PAGES {
        pool.load(rank_of(&history, Page { dev: 0, no }))?;
    }
    let pool = black_box(&mut pool);
    let start = Instant::now();
    pool.empty()?;
    Ok((u64::from(FRAMES), start.elapsed()))
}

fn done<H: BuildHasher + Default, C: Contest>(what: &str, count: u32) -> Result<(u64, Duration), Refusal> {
    match what {
        "misses" => miss_often::<H, C>(count),
        "empty" => emptied::<H, C>(),
        _ => visit_often::<H, C>(count),
    }
}

const FIRST: Page = Page { dev: 0, no: 0 };

/// The time to find each of as many pages as there are frames, in this sequence, 16 times.
fn searched<S: BuildHasher + Default>(after: impl Fn(Page) -> Page) -> Duration {
    let mut frames = HashMap::with_capacity_and_hasher(FRAMES as usize, S::default());
    let mut page = FIRST;
    for frame in 0..FRAMES {
        frames.insert(page, frame);
        page = after(page);
    }
    let start = Instant::now();
    for _ in 0..16 {
        let mut page = FIRST;
        let mut found = 0;
        for _ in 0..FRAMES {
            found += u32::from(frames.contains_key(&page));
            page = after(page);
        }
        assert_eq!(black_box(found), FRAMES, "all pages are found");
    }
    start.elapsed()
}

/// Prints it for random pages, for pages at distances of each power of two up to 2^40, and for one page on each of as many devices.
fn print_strides<S: BuildHasher + Default>() {
    let drawn = |page: Page| Page { no: page.no.wrapping_mul(6_364_136_223_846_793_005).wrapping_add(1_442_695_040_888_963_407), ..page };
    println!("drawn: {} ns", searched::<S>(drawn).as_nanos());
    for power in 0..41 {
        println!("stride 2^{power}: {} ns", searched::<S>(|page| Page { no: page.no + (1 << power), ..page }).as_nanos());
    }
    println!("devices: {} ns", searched::<S>(|page| Page { dev: page.dev.wrapping_add(1), ..page }).as_nanos());
}

fn main() {
    let words: Vec<String> = std::env::args().skip(1).collect();
    let has = |word: &str| words.iter().any(|other| other == word);
    if has("strides") {
        return if has("mixed") { print_strides::<MixedState>() } else { print_strides::<RandomState>() };
    }
    let number = words.iter().find_map(|word| word.parse().ok());
    let count = number.unwrap_or(1_000);
    let what = ["misses", "empty"].into_iter().find(|what| has(what)).unwrap_or("visits");
    let made = match (has("mixed"), has("ordered")) {
        (false, false) => done::<RandomState, Winners>(what, count),
        (false, true) => done::<RandomState, Ordered>(what, count),
        (true, false) => done::<MixedState, Winners>(what, count),
        (true, true) => done::<MixedState, Ordered>(what, count),
    };
    let (sum, spent) = made.expect("every page is known");
    if what == "empty" {
        println!("{} ns", spent.as_nanos());
        return;
    }
    println!("{count} {what}: {sum}");
    if number.is_some() {
        println!("{} ns", spent.as_nanos());
    }
}
