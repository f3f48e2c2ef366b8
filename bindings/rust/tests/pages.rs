//! Pages, pins and latches; open and close.
mod common;

use std::io::Read;
use std::mem;

use common::{over, page, reference, Memory, Path, PAGES};
use warm::{Device, Error, Handle, Options, Page};

#[test]
fn what_is_written_is_in_the_file() {
    let path = Path::new();
    let handle = over(path.device());
    handle.pin_mut(page(3)).unwrap()[..5].copy_from_slice(b"three");
    handle.write(page(4), 4090, b"fourth").unwrap();
    assert_eq!(&handle.pin(page(3)).unwrap()[..6], b"three\0");
    assert_eq!(&handle.pin(page(4)).unwrap()[4089..], b"\0fourth");
    handle.write_back_all().unwrap();
    handle.close().unwrap();
    let mut bytes = Vec::new();
    path.open().read_to_end(&mut bytes).unwrap();
    assert_eq!(bytes.len(), 5 * 4096);
    assert_eq!((&bytes[3 * 4096..][..5], &bytes[5 * 4096 - 6..]), (&b"three"[..], &b"fourth"[..]));
}

#[test]
fn a_close_loses_nothing_and_gives_the_handle_back() {
    let memory = Memory::default();
    let handle = over(memory.device());
    handle.write(page(1), 0, &[9]).unwrap();
    let refused = handle.close().unwrap_err();
    assert_eq!(refused.error, Error::Dirty);
    assert_eq!(refused.handle.counts().unwrap().dirty, 1);
    refused.handle.write_back_all().unwrap();
    refused.handle.close().unwrap();
    assert_eq!(memory.first(1), Some(9));
}

#[test]
fn a_drop_writes_back_and_an_abandon_does_not() {
    let memory = Memory::default();
    let handle = over(memory.device());
    handle.write(page(1), 0, &[9]).unwrap();
    drop(handle);
    assert_eq!(memory.first(1), Some(9));
    let handle = over(memory.device());
    handle.write(page(1), 0, &[10]).unwrap();
    handle.abandon().unwrap();
    assert_eq!(memory.first(1), Some(9));
}

#[test]
fn pages_are_read_by_many_or_written_by_one() {
    let handle = over(Memory::default().device());
    let other = handle.attach().unwrap();
    let (one, two) = (handle.pin(page(1)).unwrap(), other.pin(page(1)).unwrap());
    assert!(!one.is_hit() && two.is_hit());
    for handle in [&handle, &other] {
        assert_eq!(handle.pin_mut(page(1)).unwrap_err(), Error::Latched);
        assert_eq!(handle.write(page(1), 0, &[1]), Err(Error::Latched));
    }
    drop(one);
    assert_eq!(other.pin_mut(page(1)).unwrap_err(), Error::Latched);
    drop(two);
    let mut writing = other.pin_mut(page(1)).unwrap();
    writing[7] = 7;
    for handle in [&handle, &other] {
        assert_eq!(handle.pin(page(1)).unwrap_err(), Error::Latched);
        assert_eq!(handle.pin_mut(page(1)).unwrap_err(), Error::Latched);
        assert_eq!(handle.write(page(1), 0, &[1]), Err(Error::Latched));
    }
    drop(writing);
    assert_eq!(handle.pin(page(1)).unwrap()[7], 7);
    drop(other);
    handle.write_back_all().unwrap();
    handle.close().unwrap(); // no refused call has left a pin
}

#[test]
fn what_is_only_looked_at_is_not_dirty() {
    let handle = over(Memory::default().device());
    assert_eq!(handle.pin_mut(page(1)).unwrap()[0], 0);
    assert_eq!(handle.counts().unwrap().dirty, 0);
    handle.pin_mut(page(1)).unwrap()[0] = 1;
    assert_eq!(handle.counts().unwrap().dirty, 1);
    handle.abandon().unwrap();
}

#[test]
fn zeroed_pages_are_zero() {
    let memory = Memory::default();
    let mut handle = over(memory.device());
    for no in 1..4 {
        handle.write(page(no), 0, &[9]).unwrap();
    }
    handle.write_back_all().unwrap();
    handle.forget_pages(0, 0).unwrap();
    memory.set(
        |call, _| {
            if call == "read" {
                Err(std::io::ErrorKind::Other.into())
            } else {
                Ok(())
            }
        },
    );
    handle.pin_zeroed(page(1)).unwrap()[1] = 5; // it is not read
    assert_eq!(&handle.pin(page(1)).unwrap()[..3], &[0, 5, 0]);
    memory.heal();
    let other = handle.attach().unwrap();
    let reading = other.pin(page(2)).unwrap();
    assert_eq!(handle.pin_zeroed(page(2)).unwrap_err(), Error::Latched);
    assert_eq!(reading[0], 9);
    drop(reading);
    assert!(handle.pin_zeroed(page(2)).unwrap().iter().all(|byte| *byte == 0));
    assert!(handle.pin_zeroed(page(3)).unwrap().iter().all(|byte| *byte == 0));
    assert!(other.pin(page(2)).unwrap().iter().all(|byte| *byte == 0));
    assert_eq!(other.counts().unwrap().dirty, 3);
    drop(handle);
    drop(other);
    assert_eq!((memory.first(1), memory.first(2), memory.first(3)), (Some(0), Some(0), Some(0)));
}

#[test]
fn bad_numbers_are_refused_and_change_nothing() {
    let handle = over(Memory::default().device());
    assert_eq!(handle.pin(Page { dev: 1, no: 0 }).unwrap_err(), Error::NoDevice);
    assert_eq!(handle.pin(page(PAGES)).unwrap_err(), Error::NoPage);
    assert_eq!(handle.pin_mut(page(u64::MAX)).unwrap_err(), Error::NoPage);
    assert_eq!(handle.write(page(1), 4096, &[1]), Err(Error::OutOfPage));
    assert_eq!(handle.write(page(1), usize::MAX, &[1, 2]), Err(Error::OutOfPage));
    assert_eq!(handle.write(page(1), 4096, &[]), Ok(()));
    assert_eq!(handle.prefetch(page(PAGES)), Err(Error::NoPage));
    assert_eq!(handle.victims(1).unwrap_err(), Error::NoShard);
    assert_eq!(handle.flush_device(1), Err(Error::NoDevice));
    assert_eq!(handle.forget_pages(7, 0), Err(Error::NoDevice));
    assert_eq!(handle.device_counts(1).unwrap_err(), Error::NoDevice);
    let mut wrong = reference(1, 1);
    wrong.replica = 65;
    assert_eq!(handle.absorb(&[reference(2, 2), wrong]), Err(Error::BadReplica));
    assert_eq!(handle.history_length(), Ok(0));
    assert_eq!(handle.last_failure(), Ok(None));
    handle.write_back_all().unwrap();
    handle.close().unwrap();
}

#[test]
fn bad_options_are_refused() {
    let path = Path::new();
    let refused = |options: Options| Handle::open(options).unwrap_err();
    assert_eq!(refused(Options::new(0)), Error::BadReplica);
    assert_eq!(refused(Options::new(65)), Error::BadReplica);
    assert_eq!(refused(Options::new(1).shards(3)), Error::BadShards);
    assert_eq!(refused(Options::new(1).shards(4).frames(10)), Error::UnevenFrames);
    assert_eq!(refused(Options::new(1).page_size(65537)), Error::BadPageSize);
    assert_eq!(refused(Options::new(1).frames(65537)), Error::BadFrames);
    assert_eq!(
        refused(Options::new(1).device(path.device()).device(path.device())),
        Error::SameFile
    );
    let appending = std::fs::OpenOptions::new().append(true).read(true).open(&path.0).unwrap();
    assert_eq!(refused(Options::new(1).device(Device::file(appending, 1))), Error::Appends);
    assert_eq!(
        refused(Options::new(1).device(Device::file(path.open(), u64::MAX))),
        Error::BadDevice
    );
}

#[test]
fn settings_have_the_defaults() {
    let settings = over(Memory::default().device()).settings();
    assert_eq!((settings.replica, settings.shards), (1, 1));
    assert_eq!((settings.frames, settings.page_size), (16, 4096));
    let alone = Handle::open(Options::new(64).shards(8)).unwrap();
    assert_eq!((alone.settings().replica, alone.settings().shards), (64, 8));
    assert_eq!(alone.pin(page(0)).unwrap_err(), Error::NoDevice);
    assert_eq!(warm::version(), env!("CARGO_PKG_VERSION"));
}

#[test]
fn a_page_is_loaded_without_a_pin() {
    let handle = over(Memory::default().device());
    let other = handle.attach().unwrap();
    assert_eq!((handle.prefetch(page(3)), other.prefetch(page(3))), (Ok(()), Ok(())));
    assert!(other.pin(page(3)).unwrap().is_hit());
    assert_eq!(handle.counts().unwrap().misses, 0);
    assert_eq!(handle.forget_pages(0, 0), Ok(()));
}

#[test]
fn each_frame_may_be_pinned_and_no_more() {
    let handle = over(Memory::default().device());
    let pins: Vec<_> = (0..16).map(|no| handle.pin(page(no)).unwrap()).collect();
    assert_eq!(handle.pin(page(16)).unwrap_err(), Error::AllPinned);
    assert_eq!(handle.forget_pages(0, 15), Err(Error::Pinned));
    assert_eq!(handle.victims(0), Ok(vec![]));
    drop(pins);
    assert!(!handle.pin(page(16)).unwrap().is_hit());
}

#[test]
fn victims_are_in_the_order_of_their_second_latest_use() {
    let handle = over(Memory::default().device());
    let mut references = Vec::new();
    for (no, times) in [(1, [10, 40]), (2, [30, 31]), (3, [5, 50]), (4, [20, 21])] {
        drop(handle.pin(page(no)).unwrap());
        references.extend(times.map(|time| reference(no, time)));
    }
    handle.absorb(&references).unwrap();
    assert_eq!(handle.victims(0), Ok([3, 1, 4, 2].map(page).to_vec()));
    let pin = handle.pin(page(1)).unwrap();
    assert_eq!(handle.victims(0), Ok([3, 4, 2].map(page).to_vec()));
    assert!(handle.is_resident(page(1)).unwrap() && !handle.is_resident(page(5)).unwrap());
    drop(pin);
}

#[test]
fn a_leaked_pin_keeps_its_page_and_harms_nothing() {
    let memory = Memory::default();
    let handle = over(memory.device());
    let other = handle.attach().unwrap();
    mem::forget(handle.pin(page(1)).unwrap());
    mem::forget(other.pin_mut(page(2)).unwrap());
    assert_eq!(handle.forget_pages(0, 0), Err(Error::Pinned));
    assert_eq!(handle.pin(page(2)).unwrap_err(), Error::Latched);
    let refused = other.close().unwrap_err();
    assert_eq!(refused.error, Error::PinsLeft);
    refused.handle.write(page(3), 0, &[3]).unwrap();
    drop(refused);
    drop(handle);
    assert_eq!(memory.first(3), Some(3));
}

/// Be it by a hold, as of a page that was pinned twice before, or not.
#[test]
fn a_leaked_pin_ends_with_its_handle() {
    let handle = over(Memory::default().device());
    let other = handle.attach().unwrap();
    for no in 0..12 {
        if no % 3 == 0 {
            (0..2).for_each(|_| drop(other.pin(page(no)).unwrap()));
        }
        match no % 2 {
            0 => mem::forget(other.pin(page(no)).unwrap()),
            _ => mem::forget(other.pin_mut(page(no)).unwrap()),
        }
    }
    drop(other);
    handle.forget_pages(0, 0).unwrap();
    for first in [20, 40] {
        let all: Vec<_> = (first..first + 16).map(|no| handle.pin_mut(page(no)).unwrap()).collect();
        assert_eq!(handle.pin(page(19)).unwrap_err(), Error::AllPinned);
        drop(all);
    }
}

#[test]
fn a_leaked_pin_keeps_no_zeros_away() {
    let memory = Memory::default();
    let mut handle = over(memory.device());
    for no in 1..3 {
        handle.write(page(no), 0, &[9]).unwrap();
    }
    mem::forget(handle.pin(page(1)).unwrap());
    mem::forget(handle.pin_mut(page(2)).unwrap());
    for no in 1..3 {
        handle.pin_zeroed(page(no)).unwrap()[1] = 5;
        assert_eq!(&handle.pin(page(no)).unwrap()[..3], &[0, 5, 0]);
    }
    handle.write_back_all().unwrap();
    assert_eq!(handle.forget_pages(0, 0), Err(Error::Pinned));
}

#[test]
fn the_replica_ends_with_its_last_handle() {
    let memory = Memory::default();
    let opener = over(memory.device());
    let attached = opener.attach().unwrap();
    let refused = opener.close().unwrap_err();
    assert_eq!(refused.error, Error::Attached);
    drop(refused); // the handle that opened it
    attached.write(page(5), 0, &[5]).unwrap();
    let another = attached.attach().unwrap();
    attached.close().unwrap();
    assert_eq!(another.pin(page(5)).unwrap()[0], 5);
    let refused = another.close().unwrap_err(); // it has the opener's place now
    assert_eq!(refused.error, Error::Dirty);
    let again = refused.handle.attach().unwrap();
    assert_eq!(again.pin(page(5)).unwrap()[0], 5);
    drop(again);
    refused.handle.write_back_all().unwrap();
    refused.handle.close().unwrap();
    assert_eq!(memory.first(5), Some(5));
}

#[test]
fn errors_have_words() {
    assert_eq!(Error::Memory.status(), Some(1));
    assert_eq!(Error::Latched.status(), None);
    for error in [Error::Memory, Error::Skipped, Error::Unknown(12345), Error::InDevice] {
        assert!(error.to_string().len() > 5, "{error:?}");
    }
    assert_ne!(Error::Memory.to_string(), Error::NoPage.to_string());
}
