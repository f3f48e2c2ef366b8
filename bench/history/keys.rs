//! The cost of the width of a key in the maps of a history: 64 BTreeMaps, one for each bucket, with keys of 64 bits and of 128, and
//! otherwise the same. As in the proved history, each change is noted before the next, and a new page is looked up before it is inserted.
//!
//! `keys PAGES ROUNDS` does all with both keys in turn, ROUNDS times, and prints the least nanoseconds of each. `keys PAGES KEY WHAT` prepares
//! what the work of that name needs, does it once with keys of `64` or `128` bits, and `keys PAGES KEY WHAT only` only prepares it: the
//! difference is what the work costs, where instructions are counted.

use std::collections::BTreeMap;
use std::hint::black_box;
use std::time::{Duration, Instant};

#[path = "../parts/mod.rs"]
mod parts;

use parts::hist::{Hist, Page, Stamp};

const BATCH: usize = 64;
const BUCKETS: usize = 64;
const NAMES: [&str; 6] = ["zipf", "new", "copy", "known", "join", "lookup"];

/// A page as the key of a map: its bucket, its device and its number, from the highest bits on.
trait Key: Copy + Ord {
    fn of(page: Page) -> Self;
    fn bucket(self) -> usize;
}

impl Key for u64 {
    fn of(page: Page) -> u64 {
        (page.bucket() as u64) << 48 | u64::from(page.dev) << 32 | page.no & 0xffff_ffff
    }

    fn bucket(self) -> usize {
        (self >> 48) as usize
    }
}

impl Key for u128 {
    fn of(page: Page) -> u128 {
        (page.bucket() as u128) << 80 | u128::from(page.dev) << 64 | u128::from(page.no)
    }

    fn bucket(self) -> usize {
        (self >> 80) as usize
    }
}

type Maps<K> = Vec<BTreeMap<K, Hist>>;

fn no_maps<K: Key>() -> Maps<K> {
    vec![BTreeMap::new(); BUCKETS]
}

/// Merges the given stamps of a page, and returns the old value, where that changes.
fn record<K: Key>(maps: &mut Maps<K>, key: K, more: Hist) -> Option<(K, Option<Hist>)> {
    let map = &mut maps[key.bucket()];
    if let Some(known) = map.get_mut(&key) {
        let before = *known;
        known.join(more);
        return (*known != before).then_some((key, Some(before)));
    }
    map.insert(key, more);
    Some((key, None))
}

fn absorb<K: Key>(maps: &mut Maps<K>, references: &[(Page, Hist)]) {
    for batch in references.chunks(BATCH) {
        let mut undo = Vec::with_capacity(batch.len());
        undo.extend(batch.iter().filter_map(|&(page, hist)| record(maps, K::of(page), hist)));
        black_box(&undo);
    }
}

fn join_all<K: Key>(maps: &mut Maps<K>, other: &Maps<K>) {
    let mut undo = Vec::new();
    for (&key, &hist) in other.iter().flatten() {
        undo.extend(record(maps, key, hist));
    }
    black_box(&undo);
}

fn found<K: Key>(maps: &Maps<K>, pages: &[Page]) -> usize {
    let is_known = |page: &&Page| {
        let key = K::of(**page);
        maps[key.bucket()].contains_key(&key)
    };
    pages.iter().filter(is_known).count()
}

/// The pages absorbed, and those looked up.
struct Given {
    zipf: Vec<(Page, Hist)>,
    each: Vec<(Page, Hist)>,
    asked: Vec<Page>,
}

fn next(drawn: &mut u64) -> u64 {
    *drawn = drawn.wrapping_mul(6_364_136_223_846_793_005).wrapping_add(1_442_695_040_888_963_407);
    *drawn
}

impl Given {
    fn of(pages: u64) -> Given {
        let page = |i: u64| Page { dev: 0, no: i.wrapping_mul(7919) % pages };
        let once = |time| Hist::once(Stamp { time, replica: 1 });
        let octaves = u64::from(pages.ilog2()) + 1;
        let (mut first, mut second) = (1, 11);
        let drawn = |time| {
            let drawn = next(&mut first);
            let below = 1 << ((drawn >> 32) % octaves);
            (page(below + (drawn >> 40) % below), once(time))
        };
        Given {
            zipf: (0..pages).map(drawn).collect(),
            each: (0..pages).map(|time| (page(time), once(time))).collect(),
            asked: (0..pages).map(|_| page(next(&mut second) >> 33)).collect(),
        }
    }
}

/// The maps that the work of a name needs, and those that it makes.
struct Work<K> {
    large: Maps<K>,
    other: Maps<K>,
    made: Maps<K>,
}

impl<K: Key> Work<K> {
    fn of(given: &Given, what: &str) -> Work<K> {
        let mut large = no_maps();
        if !matches!(what, "zipf" | "new") {
            absorb(&mut large, &given.each);
        }
        let other = if what == "known" { large.clone() } else { no_maps() };
        Work { large, other, made: no_maps() }
    }

    /// Does the work once, and returns the number of pages found.
    fn play(&mut self, given: &Given, what: &str) -> usize {
        match what {
            "zipf" => absorb(&mut self.large, &given.zipf),
            "new" => absorb(&mut self.large, &given.each),
            "copy" => self.made = self.large.clone(),
            "known" => join_all(&mut self.large, &self.other),
            "join" => join_all(&mut self.made, &self.large),
            _ => return found(&self.large, &given.asked),
        }
        0
    }

    fn len(&self) -> usize {
        self.large.iter().chain(&self.made).map(BTreeMap::len).sum()
    }
}

fn timed<K: Key>(given: &Given, what: &str) -> (usize, Duration) {
    let mut work = Work::<K>::of(given, what);
    let start = Instant::now();
    let found = work.play(given, what);
    let spent = start.elapsed();
    (found + work.len(), spent)
}

/// Does the work once, or only prepares it. Ends the program, so that no map is dropped.
fn once<K: Key>(given: &Given, what: &str, is_played: bool) -> ! {
    let mut work = Work::<K>::of(given, what);
    let found = if is_played { work.play(given, what) } else { 0 };
    println!("{}", found + work.len());
    std::process::exit(0)
}

fn print_least(given: &Given, pages: u64, rounds: u64) {
    for what in NAMES {
        let mut least = [Duration::MAX; 2];
        for _ in 0..rounds {
            let narrow = timed::<u64>(given, what);
            let wide = timed::<u128>(given, what);
            assert_eq!(narrow.0, wide.0);
            least = [least[0].min(narrow.1), least[1].min(wide.1)];
        }
        let [narrow, wide] = least.map(|it| it.as_nanos());
        println!("{pages} {what}: {narrow} {wide} ns, {:.2}", wide as f64 / narrow as f64);
    }
}

fn main() {
    let words: Vec<String> = std::env::args().skip(1).collect();
    let words: Vec<&str> = words.iter().map(String::as_str).collect();
    let number = |word: &str| word.parse::<u64>().expect("a number");
    match words[..] {
        [pages, rounds] => print_least(&Given::of(number(pages)), number(pages), number(rounds)),
        [pages, key, what, ref only @ ..] if NAMES.contains(&what) => {
            let (given, is_played) = (Given::of(number(pages)), only.is_empty());
            match key {
                "64" => once::<u64>(&given, what, is_played),
                _ => once::<u128>(&given, what, is_played),
            }
        }
        _ => panic!("PAGES ROUNDS, or PAGES 64 NAME, or PAGES 128 NAME, and `only`; NAME is one of {NAMES:?}"),
    }
}
