//! A history in plain Rust: a map for each bucket, by the page's order, and a horizon.

use super::hist::{Entry, Hist, Page, Stamp};
use super::rank::Rank;
use std::cmp::Reverse;
use std::collections::btree_map::Entry as Place;
use std::collections::{BTreeMap, BinaryHeap};
use std::ops::Bound;

pub const BUCKETS: usize = 64;

/// The greatest ratio of a map's entries to the entries merged into it at which a walk along the map costs less than searches.
const MANY: usize = 8;

type Bucket = BTreeMap<Page, Hist>;

#[derive(Clone)]
pub struct History {
    pub horizon: u64,
    buckets: [Bucket; BUCKETS],
}

impl History {
    pub fn new() -> History {
        History { horizon: 0, buckets: [const { Bucket::new() }; BUCKETS] }
    }

    pub fn len(&self) -> usize {
        self.buckets.iter().map(Bucket::len).sum()
    }

    pub fn get(&self, page: Page) -> Option<Hist> {
        self.buckets[page.bucket()].get(&page).copied()
    }

    /// Takes in a reference. Returns the new history of its page, or nothing where it is unchanged.
    pub fn see(&mut self, page: Page, stamp: Stamp) -> Option<Hist> {
        if stamp.time < self.horizon {
            return None;
        }
        match self.buckets[page.bucket()].entry(page) {
            Place::Vacant(place) => Some(*place.insert(Hist::once(stamp))),
            Place::Occupied(mut place) => {
                let known = place.get_mut();
                known.see(stamp).then_some(*known)
            }
        }
    }

    /// The same for an entry, without its stamps before the horizon.
    pub fn take(&mut self, entry: Entry) -> Option<Hist> {
        let Entry { page, hist: mut more } = entry;
        if !more.forget(self.horizon) {
            return None;
        }
        match self.buckets[page.bucket()].entry(page) {
            Place::Vacant(place) => Some(*place.insert(more)),
            Place::Occupied(mut place) => {
                let known = place.get_mut();
                known.join(more).then_some(*known)
            }
        }
    }

    /// The same for entries whose pages rise. Reports each page that changed, with its new history.
    ///
    /// Entries of one bucket that are many compared with its size are merged with it: a step along a map costs less than a search.
    pub fn take_all(&mut self, entries: &[Entry], mut tell: impl FnMut(Page, Hist)) {
        let [first, .., last] = entries else {
            return self.take_each(entries, tell);
        };
        let number = first.page.bucket();
        let is_one = entries.iter().all(|entry| entry.page.bucket() == number);
        let bucket = &mut self.buckets[number];
        if !is_one || bucket.len() > MANY * entries.len() {
            return self.take_each(entries, tell);
        }
        let mut new = Vec::new();
        let mut rest = bucket.range_mut(first.page..=last.page);
        let mut next = rest.next();
        for &Entry { page, hist: mut more } in entries {
            if !more.forget(self.horizon) {
                continue;
            }
            while next.as_ref().is_some_and(|(known, _)| **known < page) {
                next = rest.next();
            }
            match &mut next {
                Some((known, hist)) if **known == page => {
                    if hist.join(more) {
                        tell(page, **hist);
                    }
                }
                _ => {
                    new.push((page, more));
                    tell(page, more);
                }
            }
        }
        add(bucket, new);
    }

    fn take_each(&mut self, entries: &[Entry], mut tell: impl FnMut(Page, Hist)) {
        for entry in entries {
            if let Some(known) = self.take(*entry) {
                tell(entry.page, known);
            }
        }
    }

    /// Forgets all stamps before a time, in one pass, where the horizon rises. Returns the buckets that lost some, as a set of bits.
    pub fn raise(&mut self, time: u64) -> u64 {
        if time <= self.horizon {
            return 0;
        }
        self.horizon = time;
        let mut lost = 0;
        for (number, bucket) in self.buckets.iter_mut().enumerate() {
            let mut loses = false;
            bucket.retain(|_, hist| {
                let was_twice = hist.is_twice();
                let is_left = hist.forget(time);
                loses |= !is_left || hist.is_twice() != was_twice;
                is_left
            });
            lost |= u64::from(loses) << number;
        }
        lost
    }

    /// All entries of a bucket, in the order of their pages.
    pub fn bucket(&self, number: usize) -> impl Iterator<Item = Entry> {
        self.buckets[number].iter().map(entry)
    }

    /// The entries of a bucket that are greater than a page.
    pub fn after(&self, number: usize, page: Option<Page>) -> impl Iterator<Item = Entry> {
        let from = page.map_or(Bound::Unbounded, Bound::Excluded);
        self.buckets[number].range((from, Bound::Unbounded)).map(entry)
    }

    /// All entries, bucket by bucket.
    pub fn entries(&self) -> impl Iterator<Item = Entry> {
        self.buckets.iter().flatten().map(entry)
    }

    /// All entries, in the order of their pages.
    pub fn in_order(&self) -> impl Iterator<Item = Entry> {
        let mut rests = self.buckets.each_ref().map(|bucket| bucket.iter());
        let firsts = rests.iter_mut().enumerate();
        let mut next: BinaryHeap<_> =
            firsts.filter_map(|(number, rest)| rest.next().map(|(page, hist)| Reverse((page, number, hist)))).collect();
        std::iter::from_fn(move || {
            let mut least = next.peek_mut()?;
            let Reverse((page, number, hist)) = *least;
            match rests[number].next() {
                Some((page, hist)) => *least = Reverse((page, number, hist)),
                None => drop(std::collections::binary_heap::PeekMut::pop(least)),
            }
            Some(Entry { page: *page, hist: *hist })
        })
    }

    /// The ranks of the hottest pages, hottest first.
    pub fn hottest_ranks(&self, count: usize) -> Vec<Rank> {
        let mut ranks: Vec<Rank> = Vec::with_capacity(self.len());
        ranks.extend(self.entries().map(Rank::of_entry));
        if count < ranks.len() {
            ranks.select_nth_unstable_by(count, |a, b| b.cmp(a));
            ranks.truncate(count);
        }
        ranks.sort_unstable_by(|a, b| b.cmp(a));
        ranks
    }

    /// The hottest pages, hottest first.
    pub fn hottest(&self, count: usize) -> Vec<Page> {
        self.hottest_ranks(count).into_iter().map(Rank::page).collect()
    }
}

/// Adds to a bucket pages that are rising and new.
fn add(bucket: &mut Bucket, new: Vec<(Page, Hist)>) {
    if bucket.is_empty() {
        *bucket = new.into_iter().collect();
    } else {
        bucket.extend(new);
    }
}

fn entry((page, hist): (&Page, &Hist)) -> Entry {
    Entry { page: *page, hist: *hist }
}
