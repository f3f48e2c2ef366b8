//! The history of a page, in plain Rust, for the programs against which the proved ones are measured.

/// 10 bytes, as pages are, so that a map scans little memory.
#[derive(Clone, Copy, PartialEq, Eq, PartialOrd, Ord)]
#[repr(packed(2))]
pub struct Stamp {
    pub time: u64,
    pub replica: u16,
}

impl Stamp {
    /// Less than every stamp, as replicas are numbered from 1. It represents a missing stamp.
    const NONE: Stamp = Stamp { time: 0, replica: 0 };
}

#[derive(Clone, Copy, PartialEq, Eq, PartialOrd, Ord, Hash)]
#[repr(packed(2))]
pub struct Page {
    pub dev: u16,
    pub no: u64,
}

impl Page {
    /// The sum may wrap: 64 divides 2^64.
    pub fn bucket(self) -> usize {
        (u64::from(self.dev).wrapping_add(self.no) % 64) as usize
    }
}

/// The two latest stamps of a page, or its only one. The order is that of ranks: a page of one stamp is less than every page of two, and
/// of two pages of two stamps the one whose second latest is earlier is less.
#[derive(Clone, Copy, PartialEq, Eq, PartialOrd, Ord)]
pub struct Hist {
    prev: Stamp,
    last: Stamp,
}

impl Hist {
    pub fn once(last: Stamp) -> Hist {
        Hist { prev: Stamp::NONE, last }
    }

    /// `None` where the stamps are not in order.
    pub fn twice(last: Stamp, prev: Stamp) -> Option<Hist> {
        (prev < last).then_some(Hist { prev, last })
    }

    pub fn last(self) -> Stamp {
        self.last
    }

    pub fn prev(self) -> Option<Stamp> {
        self.is_twice().then_some(self.prev)
    }

    pub fn is_twice(self) -> bool {
        self.prev.replica != 0
    }

    /// Merges a further stamp. Returns whether anything changed.
    pub fn see(&mut self, stamp: Stamp) -> bool {
        if stamp > self.last {
            self.prev = self.last;
            self.last = stamp;
            return true;
        }
        let is_new = stamp < self.last && stamp > self.prev;
        if is_new {
            self.prev = stamp;
        }
        is_new
    }

    /// Merges another history of the page. Returns whether anything changed.
    pub fn join(&mut self, more: Hist) -> bool {
        self.see(more.last) | self.see(more.prev)
    }

    /// Forgets the stamps before a time. Returns whether one is left.
    pub fn forget(&mut self, horizon: u64) -> bool {
        if self.prev.time < horizon {
            self.prev = Stamp::NONE;
        }
        horizon <= self.last.time
    }
}

#[derive(Clone, Copy)]
pub struct Entry {
    pub page: Page,
    pub hist: Hist,
}
