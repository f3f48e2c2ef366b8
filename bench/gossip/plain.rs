//! The gossip and the warm-up of `benches gossip` in plain Rust, for the same measurements.
//!
//! A replica is a map for each bucket with a horizon, and a pool that finds its pages by a `HashMap`. It caches the digests of its buckets and its
//! warm-up list until its history changes. There is no rollback on an allocation failure, as nothing is refused here. The arguments are those
//! of the proved program, which must accept, in addition to `round`, `warm`, `follow`, `offer` and `history`:
//! - `raised PAGES OFFERS`: that many offers by a replica with PAGES pages of two stamps each, of the times 2^40 + i and
//!   2^40 + i + 7 for page `scattered(i, PAGES)`, that has made an offer. Before offer i, counted from 0, it absorbs, in one batch, the 100
//!   pages 0:N, 0:N + 64, .. at the time i + 1, where N is the least multiple of 64 that is not below PAGES; it makes an offer; and its
//!   horizon is raised to i + 2, which drops these 100 pages of bucket 0 and nothing else. Only the offers after the raises are timed,
//!   and the checksum is over their bytes, as for `offer`.

#[path = "../parts/mod.rs"]
mod parts;

use parts::hist::{Page, Stamp};
use parts::node::Node;
use parts::pool::Pool;
use std::time::Instant;

const WARMED: usize = 4_096;
const PAGE_SIZE: usize = 16;
const DROPPED: u64 = 100;
const LATE: u64 = 1 << 40;

fn scattered(i: u64, pages: u64) -> Page {
    Page { dev: 0, no: i.wrapping_mul(7919) % pages }
}

/// Two references to each page, from a time on.
fn remember(node: &mut Node, pages: u64, from: u64) {
    for i in 0..pages {
        for time in [from + i, from + i + 7] {
            node.see(scattered(i, pages), Stamp { time, replica: 1 });
        }
    }
}

fn knowing(id: u16, frames: usize, pages: u64) -> Node {
    let mut node = Node::new(id, Pool::new(frames, pages, PAGE_SIZE));
    remember(&mut node, pages, 0);
    node
}

fn sum_of(node: &Node) -> u64 {
    let in_order = node.history.in_order();
    in_order.fold(0u64, |sum, entry| sum.wrapping_mul(31).wrapping_add(entry.page.no).wrapping_add(entry.hist.last().time))
}

fn answers(node: &mut Node, sent: &[Vec<u8>]) -> Vec<Vec<u8>> {
    sent.iter().flat_map(|bytes| node.receive(bytes)).collect()
}

fn round(first: &mut Node, second: &mut Node) -> u64 {
    let digests = first.offer();
    let entries_and_request = second.receive(&digests);
    let wanted = answers(first, &entries_and_request);
    answers(second, &wanted);
    let sent: usize = entries_and_request.iter().chain(&wanted).map(Vec::len).sum();
    (digests.len() + sent) as u64
}

fn rounds(pages: u64, buckets: u64, rounds: u64) -> (u64, u128) {
    let mut first = knowing(1, 1, pages);
    let mut second = knowing(2, 1, pages);
    let start = Instant::now();
    let mut sent = 0u64;
    for i in 0..rounds {
        for no in 0..buckets {
            let time = LATE + i;
            first.see(Page { dev: 0, no }, Stamp { time, replica: 1 });
        }
        sent += round(&mut first, &mut second);
    }
    let nanos = start.elapsed().as_nanos();
    assert!(sum_of(&first) == sum_of(&second), "the histories differ");
    (sum_of(&second).wrapping_add(sent), nanos)
}

fn warmed(pages: u64, steps: u64) -> (u64, u128) {
    let mut node = knowing(1, WARMED, pages);
    let start = Instant::now();
    let loaded = (0..steps).map_while(|_| node.warm_step().expect("no page is fixed"));
    let sum = loaded.fold(0u64, |sum, page| sum.wrapping_mul(31).wrapping_add(page.no));
    let nanos = start.elapsed().as_nanos();
    (sum, nanos)
}

// Each step but the first follows a reference to another page.
fn followed(pages: u64, steps: u64) -> (u64, u128) {
    let mut node = knowing(1, WARMED, pages);
    node.warm_step().expect("no page is fixed");
    let start = Instant::now();
    let mut sum = 0u64;
    for i in 0..steps {
        node.see(scattered(i, pages), Stamp { time: LATE + i, replica: 1 });
        // The sum of a step, as of a warm-up of one.
        let loaded = node.warm_step().expect("no page is fixed").map_or(0, |page| page.no);
        sum = sum.wrapping_mul(31).wrapping_add(loaded);
    }
    let nanos = start.elapsed().as_nanos();
    (sum, nanos)
}

// This many offers. Before each the node absorbs pages of this many buckets, which is not timed.
fn offers(pages: u64, buckets: u64, offers: u64) -> (u64, u128) {
    let mut node = knowing(1, 1, pages);
    node.offer();
    let (mut sum, mut nanos) = (0u64, 0);
    for i in 0..offers {
        for no in 0..buckets {
            let time = LATE + i;
            node.see(Page { dev: 0, no }, Stamp { time, replica: 1 });
        }
        let start = Instant::now();
        let bytes = node.offer();
        nanos += start.elapsed().as_nanos();
        sum = bytes.iter().fold(sum, |sum, byte| sum.wrapping_mul(31).wrapping_add(u64::from(*byte)));
    }
    (sum, nanos)
}

// This many offers, each after a raise that dropped pages of one bucket. Only the offers are timed.
fn raised_offers(pages: u64, offers: u64) -> (u64, u128) {
    let mut node = Node::new(1, Pool::new(1, pages, PAGE_SIZE));
    remember(&mut node, pages, LATE);
    node.offer();
    let first = pages.next_multiple_of(64);
    let (mut sum, mut nanos) = (0u64, 0);
    for i in 0..offers {
        for k in 0..DROPPED {
            node.see(Page { dev: 0, no: first + 64 * k }, Stamp { time: i + 1, replica: 1 });
        }
        node.offer();
        node.raise(i + 2);
        assert!(node.changed() == 1, "the raise changes bucket 0 alone");
        let start = Instant::now();
        let bytes = node.offer();
        nanos += start.elapsed().as_nanos();
        sum = bytes.iter().fold(sum, |sum, byte| sum.wrapping_mul(31).wrapping_add(u64::from(*byte)));
    }
    (sum, nanos)
}

fn remembered(pages: u64) -> (u64, u128) {
    let mut node = Node::new(1, Pool::new(1, 1, PAGE_SIZE));
    let start = Instant::now();
    remember(&mut node, pages, 0);
    let nanos = start.elapsed().as_nanos();
    (sum_of(&node), nanos)
}

fn main() {
    let words: Vec<String> = std::env::args().skip(1).collect();
    let number = |i: usize| words.get(i).map_or(0u64, |word| word.parse().expect("a number"));
    let (sum, nanos) = match words.first().map(String::as_str) {
        Some("round") => rounds(number(1), number(2), number(3)),
        Some("warm") => warmed(number(1), number(2)),
        Some("follow") => followed(number(1), number(2)),
        Some("offer") => offers(number(1), number(2), number(3)),
        Some("raised") => raised_offers(number(1), number(2)),
        Some("history") => remembered(number(1)),
        _ => panic!("round, warm, follow, offer, raised or history"),
    };
    println!("{sum}");
    println!("{nanos} ns");
}
