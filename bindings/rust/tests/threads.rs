//! Threads, each with a handle; gossip, warm-ups and dumps.
mod common;

use std::fs::File;
use std::sync::atomic::{AtomicBool, AtomicUsize, Ordering};
use std::sync::mpsc::{channel, Receiver, RecvTimeoutError, Sender};
use std::sync::{Arc, Barrier};
use std::thread;
use std::time::{Duration, Instant};

use common::{over, page, reference, Memory, Path, PAGES};
use warm::{Device, Error, Handle, Options, Page, Sending};

fn of_four_shards(device: Device) -> Handle {
    let options = Options::new(1).shards(4).frames(32).latch_wait(Duration::from_secs(600));
    Handle::open(options.device(device)).unwrap()
}

#[test]
fn readers_see_whole_pages_and_no_change_is_lost() {
    const CHANGES: u64 = 400;
    let path = Path::new();
    let opener = of_four_shards(path.device());
    let is_over = AtomicBool::new(false);
    thread::scope(|scope| {
        let mut writers = Vec::new();
        for seed in 0..3 {
            let handle = opener.attach().unwrap();
            writers.push(scope.spawn(move || change_pages(&handle, seed, CHANGES)));
        }
        for seed in 0..2 {
            let (handle, is_over) = (opener.attach().unwrap(), &is_over);
            scope.spawn(move || read_pages(&handle, seed, is_over));
        }
        let (handle, is_over) = (opener.attach().unwrap(), &is_over);
        scope.spawn(move || {
            while !is_over.load(Ordering::SeqCst) {
                handle.write_back_all().unwrap();
            }
        });
        writers.into_iter().for_each(|writer| writer.join().unwrap());
        is_over.store(true, Ordering::SeqCst);
    });
    let changes = (0..40).map(|no| count_of(&opener.pin(page(no)).unwrap())).sum::<u64>();
    assert_eq!(changes, 3 * CHANGES);
    opener.write_back_all().unwrap();
    opener.close().unwrap();
}

/// Each word of a page is how often it was changed.
fn count_of(bytes: &[u8]) -> u64 {
    let first = u64::from_le_bytes(bytes[..8].try_into().unwrap());
    assert!(bytes.chunks(8).all(|word| word == &bytes[..8]), "a page is torn");
    first
}

fn change_pages(handle: &Handle, seed: u64, changes: u64) {
    for step in 0..changes {
        let mut bytes = handle.pin_mut(page((step * 7 + seed) % 40)).unwrap();
        let next = (count_of(&bytes) + 1).to_le_bytes();
        bytes.chunks_mut(8).for_each(|word| word.copy_from_slice(&next));
    }
}

fn read_pages(handle: &Handle, seed: u64, is_over: &AtomicBool) {
    let mut step = seed;
    while !is_over.load(Ordering::SeqCst) {
        count_of(&handle.pin(page(step % 40)).unwrap());
        step += 1;
    }
}

#[test]
fn handles_move_between_threads() {
    let memory = Memory::default();
    let opener = over(memory.device());
    let attached = opener.attach().unwrap();
    let opener = thread::spawn(move || {
        opener.write(page(1), 0, &[1]).unwrap();
        opener
    })
    .join()
    .unwrap();
    let one = thread::spawn(move || opener.close().unwrap_err().error);
    assert_eq!(one.join().unwrap(), Error::Attached);
    thread::spawn(move || attached.write(page(2), 0, &[2]).unwrap()).join().unwrap();
    assert_eq!((memory.first(1), memory.first(2)), (Some(1), Some(2)));
}

#[test]
fn waiting_for_a_latch_ends() {
    let wait = Duration::from_millis(50);
    let options = Options::new(1).frames(16).latch_wait(wait).device(Memory::default().device());
    let handle = Handle::open(options).unwrap();
    let reading = handle.pin(page(1)).unwrap();
    let begin = Instant::now();
    assert_eq!(handle.pin_mut(page(1)).unwrap_err(), Error::Latched);
    assert!(begin.elapsed() >= wait && begin.elapsed() < Duration::from_secs(600));
    drop(reading);
    handle.pin_mut(page(1)).unwrap()[0] = 1;
    handle.abandon().unwrap();
}

#[test]
fn waiting_for_a_read_ends() {
    let memory = Memory::default();
    let handle = over(memory.device());
    let reader = handle.attach().unwrap();
    let stops = Arc::new(Barrier::new(2));
    let in_read = stops.clone();
    memory.set(move |call, no| {
        if call == "read" && no == 1 {
            in_read.wait();
            in_read.wait();
        }
        Ok(())
    });
    let reading = thread::spawn(move || reader.pin(page(1)).map(|pin| pin[0]));
    stops.wait();
    handle.limit_waits(Duration::from_millis(1)).unwrap();
    assert_eq!(handle.pin(page(1)).map(|pin| pin[0]), Err(Error::Busy));
    assert_eq!(handle.pin(page(2)).map(|pin| pin[0]), Ok(0));
    stops.wait();
    assert_eq!(reading.join().unwrap(), Ok(0));
    assert_eq!(handle.pin(page(1)).map(|pin| pin[0]), Ok(0));
}

#[test]
fn a_small_stack_is_refused() {
    let opener = over(Memory::default().device());
    let handle = opener.attach().unwrap();
    let small = thread::Builder::new().stack_size(100 << 10);
    let (refused, handle) = small
        .spawn(move || {
            let refused = handle.pin(page(1)).map(|pin| pin[0]);
            let opened = Handle::open(Options::new(1)).map(drop);
            assert_eq!(opened, Err(Error::SmallStack));
            (refused, handle)
        })
        .unwrap()
        .join()
        .unwrap();
    assert_eq!(refused, Err(Error::SmallStack));
    let large = thread::Builder::new().stack_size(256 << 10);
    let read = large.spawn(move || handle.pin(page(1)).map(|pin| pin[0])).unwrap().join().unwrap();
    assert_eq!(read, Ok(0));
}

/// Offers once, and then answers what comes, until no message is on its way to either. One is on its
/// way until its answers are: so however slow a thread is, the other one waits for it.
fn gossip(handle: &Handle, to: &Sender<Vec<u8>>, from: &Receiver<Vec<u8>>, waiting: &AtomicUsize) {
    let mut message = Vec::new();
    handle.offer(&mut message).unwrap();
    to.send(message.clone()).unwrap();
    while waiting.load(Ordering::SeqCst) > 0 {
        let received = match from.recv_timeout(Duration::from_millis(10)) {
            Ok(received) => received,
            Err(RecvTimeoutError::Timeout) => continue,
            Err(RecvTimeoutError::Disconnected) => return, // the other thread panicked
        };
        handle.receive(&received).unwrap();
        while handle.next_answer(&mut message).unwrap() {
            waiting.fetch_add(1, Ordering::SeqCst);
            to.send(message.clone()).unwrap();
        }
        waiting.fetch_sub(1, Ordering::SeqCst);
    }
}

#[test]
fn two_replicas_that_gossip_know_the_same() {
    let ends = (channel(), channel());
    let replicas = [1, 2].map(|replica| {
        let device = Memory::default().device();
        Handle::open(Options::new(replica).shards(2).frames(8).device(device)).unwrap()
    });
    for no in 0..PAGES {
        replicas[(no % 2) as usize]
            .absorb(&[reference(no, no + 1), reference(no, no + 1000)])
            .unwrap();
    }
    let ((to_second, at_second), (to_first, at_first)) = ends;
    let waiting = &AtomicUsize::new(2); // the offer of each
    thread::scope(|scope| {
        let handles = [0, 1].map(|at: usize| replicas[at].attach().unwrap());
        let [first, second] = handles;
        scope.spawn(move || gossip(&first, &to_second, &at_first, waiting));
        scope.spawn(move || gossip(&second, &to_first, &at_second, waiting));
    });
    let lists = [0, 1].map(|at: usize| replicas[at].list(1000).unwrap());
    assert_eq!(lists[0], (0..PAGES).rev().map(page).collect::<Vec<Page>>());
    assert_eq!(lists[0], lists[1]);
    let mut loaded = Vec::new();
    while let Some(page) = replicas[1].step().unwrap() {
        loaded.push(page.no);
    }
    loaded.sort_unstable();
    assert_eq!(loaded, (PAGES - 8..PAGES).collect::<Vec<u64>>());
}

#[test]
fn a_bucket_is_sent_in_parts_and_damage_is_refused() {
    let (from, to) =
        (Handle::open(Options::new(1)).unwrap(), Handle::open(Options::new(2)).unwrap());
    let references: Vec<_> = (0..1500).map(|at| reference(64 * at + 5, at)).collect();
    from.absorb(&references).unwrap();
    let (mut sending, mut message) = (Sending::new(5, 0), Vec::new());
    let mut parts = 0;
    loop {
        from.send(&mut sending, &mut message).unwrap();
        assert_eq!(to.receive(&message[..message.len() - 1]), Err(Error::Truncated));
        to.receive(&message).unwrap();
        parts += 1;
        if !sending.has_more() {
            break;
        }
    }
    assert_eq!((parts, to.history_length()), (2, Ok(1500)));
    assert_eq!(from.send(&mut Sending::new(64, 0), &mut message), Err(Error::BadBucket));
    assert!(message.is_empty());
    assert_eq!(to.receive(b""), Err(Error::Truncated));
    to.limit(10).unwrap();
    from.offer(&mut message).unwrap();
    to.receive(&message).unwrap();
    assert_eq!(from.raise(1000), Ok(1000));
    from.offer(&mut message).unwrap();
    assert_eq!(to.receive(&message), Err(Error::LateHorizon));
    to.limit(u64::MAX).unwrap();
    to.limit_history(999, usize::MAX).unwrap();
    assert_eq!(to.receive(&message), Err(Error::LateHorizon));
}

#[test]
fn a_dump_comes_back() {
    let path = Path::new();
    let handle = Handle::open(Options::new(1)).unwrap();
    handle.absorb(&[reference(1, 1), reference(2, 2)]).unwrap();
    handle.save(&path.open()).unwrap();
    let again = Handle::open(Options::new(1).shards(4)).unwrap();
    again.load(&path.open()).unwrap();
    assert_eq!(again.list(10), handle.list(10));
    assert_eq!(again.history_length(), Ok(2));
    let reading = File::open(&path.0).unwrap();
    assert_eq!(handle.save(&reading), Err(Error::DumpNotWritten));
    path.open().set_len(10).unwrap();
    assert_eq!(again.load(&reading), Err(Error::CutShort));
    assert_eq!(again.history_length(), Ok(2));
}
