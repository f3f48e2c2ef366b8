//! Devices of the caller's own: what fails, panics, or does what it must not.
mod common;

use std::cell::RefCell;
use std::collections::HashMap;
use std::io;
use std::panic::panic_any;
use std::sync::atomic::{AtomicU64, Ordering};
use std::sync::{Arc, Mutex};

use common::{over, page, Memory, PAGES};
use warm::{Device, Error, Failed, Handle, Options, Page, PageDevice};

/// The last eight bytes of a page are a sum of the others.
struct Summed(Memory);

fn sum(bytes: &[u8]) -> [u8; 8] {
    bytes
        .iter()
        .fold(0u64, |sum, byte| sum.wrapping_mul(31).wrapping_add(u64::from(*byte) + 1))
        .to_le_bytes()
}

impl PageDevice for Summed {
    fn read(&self, no: u64, into: &mut [u8]) -> io::Result<()> {
        self.0.read(no, into)?;
        let (content, its_sum) = into.split_at(into.len() - 8);
        let is_new = into.iter().all(|byte| *byte == 0);
        if is_new || sum(content) == its_sum {
            Ok(())
        } else {
            Err(io::Error::from_raw_os_error(74))
        }
    }

    fn write(&self, no: u64, bytes: &[u8]) -> io::Result<()> {
        let mut bytes = bytes.to_vec();
        let at = bytes.len() - 8;
        let its_sum = sum(&bytes[..at]);
        bytes[at..].copy_from_slice(&its_sum);
        self.0.write(no, &bytes)
    }

    fn sync(&self) -> io::Result<()> {
        self.0.sync()
    }
}

#[test]
fn a_torn_page_is_refused() {
    let memory = Memory::default();
    let handle = over(Device::own(Summed(memory.clone()), PAGES));
    handle.write(page(1), 0, &[1]).unwrap();
    handle.write(page(2), 0, &[2]).unwrap();
    handle.write_back_all().unwrap();
    handle.forget_pages(0, 0).unwrap();
    memory.pages.lock().unwrap().get_mut(&1).unwrap()[100] = 1;
    assert_eq!(handle.pin(page(1)).unwrap_err(), Error::ReadFault);
    let failure = handle.last_failure().unwrap().unwrap();
    assert_eq!((failure.what, failure.page, failure.error), (Failed::Read, page(1), 74));
    assert_eq!(handle.pin(page(2)).unwrap()[0], 2);
    memory.pages.lock().unwrap().get_mut(&1).unwrap()[100] = 0;
    assert_eq!(handle.pin(page(1)).unwrap()[0], 1);
}

/// Fills page 1 alone, and looks at what it is given.
struct Lazy;

impl PageDevice for Lazy {
    fn read(&self, no: u64, into: &mut [u8]) -> io::Result<()> {
        assert!(into.iter().all(|byte| *byte == 0));
        if no == 1 {
            into.fill(1);
        }
        Ok(())
    }

    fn write(&self, _no: u64, _bytes: &[u8]) -> io::Result<()> {
        Ok(())
    }

    fn sync(&self) -> io::Result<()> {
        Ok(())
    }
}

#[test]
fn bytes_that_a_read_leaves_are_zero() {
    let handle = Handle::open(Options::new(1).frames(1).device(Device::own(Lazy, PAGES))).unwrap();
    let only_byte = |no| {
        let pin = handle.pin(page(no)).unwrap();
        assert!(pin.iter().all(|byte| *byte == pin[0]));
        pin[0]
    };
    for is_alone in [true, false] {
        let _other = (!is_alone).then(|| handle.attach().unwrap()); // pages are read elsewhere then
        assert_eq!([2, 1, 2, 3, 1].map(only_byte), [0, 1, 0, 0, 1]);
    }
}

/// Pages that are written and read, and what each must have, by a model. Returns what was refused.
fn work(handle: &Handle, model: &mut HashMap<u64, u8>) -> Vec<Error> {
    let mut refused = Vec::new();
    for step in 0..60u64 {
        let no = step * 7 % 40;
        match handle.write(page(no), 0, &[step as u8]) {
            Ok(()) => drop(model.insert(no, step as u8)),
            Err(error) => refused.push(error),
        }
        let no = step * 11 % 40;
        match handle.pin(page(no)) {
            Ok(pin) => assert_eq!(pin[0], model.get(&no).copied().unwrap_or(0)),
            Err(error) => refused.push(error),
        }
        if step % 20 == 19 {
            refused.extend(handle.write_back_all().err());
        }
    }
    refused
}

#[test]
fn each_call_fails_in_turn_and_nothing_is_lost() {
    let mut failing = 1;
    loop {
        let (memory, mut model) = (Memory::default(), HashMap::new());
        memory.failing.store(failing, Ordering::SeqCst);
        let handle = over(memory.device());
        let refused = work(&handle, &mut model);
        let calls = memory.calls.load(Ordering::SeqCst);
        memory.heal();
        for error in &refused {
            assert!(
                matches!(error, Error::ReadFault | Error::EvictFault | Error::WriteFault),
                "{error:?}"
            );
        }
        if calls < failing {
            assert!(refused.is_empty() && failing > 100, "{failing}");
            return;
        }
        let failure = handle.last_failure().unwrap().unwrap();
        assert_eq!(failure.error, 28);
        let ended = handle.write_back_all();
        assert_eq!(ended.is_ok(), failure.what != Failed::Flush, "{failing}"); // it is remembered
        for (no, byte) in &model {
            assert_eq!(memory.first(*no), Some(*byte), "{failing}");
        }
        failing += 1;
    }
}

#[test]
fn a_panic_is_a_failed_call() {
    struct DropsBadly;
    impl Drop for DropsBadly {
        fn drop(&mut self) {
            panic!("while a panic is dropped");
        }
    }
    let memory = Memory::default();
    let handle = over(memory.device());
    handle.write(page(1), 0, &[1]).unwrap();
    memory.set(|call, no| match (call, no) {
        ("read", 2) => panic!("in a read"),
        ("read", 3) => panic_any(DropsBadly),
        ("write", _) => panic!("in a write"),
        _ => Ok(()),
    });
    for no in [2, 3] {
        assert_eq!(handle.pin(page(no)).unwrap_err(), Error::ReadFault);
        assert_eq!(handle.last_failure().unwrap().unwrap().error, 5);
    }
    assert_eq!(handle.write_back_all(), Err(Error::WriteFault));
    memory.set(|call, _| if call == "before_write" { panic!("before a write") } else { Ok(()) });
    assert_eq!(handle.write_back_all(), Err(Error::WriteFault));
    assert_eq!(handle.pin(page(1)).unwrap()[0], 1);
    memory.heal();
    assert_eq!(handle.pin(page(2)).unwrap()[0], 0);
    handle.write_back_all().unwrap();
    assert_eq!(memory.first(1), Some(1));
    memory.set(|call, _| if call == "sync" { panic!("in a sync") } else { Ok(()) });
    handle.write(page(1), 0, &[2]).unwrap();
    assert_eq!(handle.write_back_all(), Err(Error::WriteFault));
    drop(handle);
    assert_eq!(memory.first(1), Some(2));
}

#[test]
fn errors_without_an_errno_are_io_errors() {
    let memory = Memory::default();
    let handle = over(memory.device());
    for error in [0, -1] {
        memory.set(move |_, _| Err(io::Error::from_raw_os_error(error)));
        assert_eq!(handle.pin(page(1)).unwrap_err(), Error::ReadFault);
        assert_eq!(handle.last_failure().unwrap().unwrap().error, 5);
    }
    memory.set(|_, _| Err(io::Error::new(io::ErrorKind::Other, "words")));
    assert_eq!(handle.pin(page(1)).unwrap_err(), Error::ReadFault);
    assert_eq!(handle.last_failure().unwrap().unwrap().error, 5);
}

#[test]
fn a_skipped_page_waits() {
    let memory = Memory::default();
    let handle = over(memory.device());
    for no in 0..3 {
        handle.write(page(no), 0, &[1 + no as u8]).unwrap();
    }
    memory.set(|call, no| match (call, no) {
        ("before_write", 1) => Err(io::ErrorKind::WouldBlock.into()),
        _ => Ok(()),
    });
    assert_eq!(handle.write_back_all(), Err(Error::Skipped));
    assert_eq!((memory.first(0), memory.first(1), memory.first(2)), (Some(1), None, Some(3)));
    let failure = handle.last_failure().unwrap().unwrap();
    assert_eq!((failure.error, failure.count), (11, 1));
    memory.heal();
    handle.write_back_all().unwrap();
    assert_eq!(memory.first(1), Some(2));
}

#[test]
fn dirty_pages_are_written_in_parts_and_devices_flushed_by_themselves() {
    let (first, second) = (Memory::default(), Memory::default());
    let options = Options::new(1).frames(16).device(first.device());
    let handle = Handle::open(options.device(second.device())).unwrap();
    for no in 0..5 {
        handle.write(page(no), 0, &[1]).unwrap();
    }
    handle.write(Page { dev: 1, no: 7 }, 0, &[2]).unwrap();
    assert_eq!(handle.write_back_some(0), Ok(6));
    assert_eq!(handle.write_back_some(2), Ok(4));
    let counted = [0, 1].map(|dev| handle.device_counts(dev).unwrap());
    assert_eq!(counted[0].writes + counted[1].writes, 2);
    assert_eq!(counted[0].flushes + counted[1].flushes, 0);
    assert_eq!(handle.write_back_page(page(3)), Ok(true));
    assert_eq!(first.first(3), Some(1));
    assert_eq!([3, 9].map(|no| handle.write_back_page(page(no))), [Ok(false); 2]);
    assert_eq!(handle.write_back_some(0), Ok(3));
    handle.flush_device(1).unwrap();
    assert_eq!(second.first(7), Some(2));
    let counted = handle.device_counts(1).unwrap();
    assert_eq!((counted.reads, counted.writes, counted.flushes, counted.failures), (1, 1, 1, 0));
    handle.flush_device(0).unwrap();
    let counted = handle.counts().unwrap();
    assert_eq!((counted.misses, counted.resident), (6, 6));
    assert_eq!((counted.written_back, counted.dirty, counted.evictions), (6, 0, 0));
    handle.close().unwrap();
}

#[test]
fn a_device_may_not_use_its_own_replica() {
    let memory = Memory::default();
    let handle = over(memory.device());
    let inner = Mutex::new(handle.attach().unwrap());
    let seen = Arc::new(AtomicU64::new(0));
    let counted = Arc::clone(&seen);
    memory.set(move |_, _| {
        let inner = inner.lock().unwrap();
        assert_eq!(inner.pin(page(9)).unwrap_err(), Error::InDevice);
        assert_eq!(inner.write(page(9), 0, &[1]), Err(Error::InDevice));
        assert_eq!(inner.counts().unwrap_err(), Error::InDevice);
        assert_eq!(inner.attach().unwrap_err(), Error::InDevice);
        assert_eq!(inner.write_back_all(), Err(Error::InDevice));
        counted.fetch_add(1, Ordering::SeqCst);
        Ok(())
    });
    handle.write(page(1), 0, &[1]).unwrap();
    handle.write_back_all().unwrap();
    assert!(seen.load(Ordering::SeqCst) >= 4); // read, before_write, write, sync
    memory.heal(); // and the inner handle is dropped
    handle.close().unwrap();
}

#[test]
fn handles_and_pins_that_a_device_drops_are_leaked() {
    thread_local! {
        static KEPT: RefCell<Option<Handle>> = const { RefCell::new(None) };
        static PIN: RefCell<Option<warm::Pin<'static>>> = const { RefCell::new(None) };
    }
    let memory = Memory::default();
    let handle: &'static Handle = Box::leak(Box::new(over(memory.device())));
    KEPT.with(|kept| *kept.borrow_mut() = Some(handle.attach().unwrap()));
    PIN.with(|pin| *pin.borrow_mut() = Some(handle.pin(page(1)).unwrap()));
    memory.set(|_, _| {
        KEPT.with(|kept| drop(kept.borrow_mut().take()));
        PIN.with(|pin| drop(pin.borrow_mut().take()));
        Ok(())
    });
    assert_eq!(handle.pin(page(2)).unwrap()[0], 0);
    memory.heal();
    assert_eq!(handle.forget_pages(0, 0), Err(Error::Pinned));
    handle.write(page(1), 0, &[1]).unwrap(); // its latch is free
}

/// A device whose pages are another replica's.
struct Below(Mutex<Handle>);

impl PageDevice for Below {
    fn read(&self, no: u64, into: &mut [u8]) -> io::Result<()> {
        let handle = self.0.lock().unwrap();
        into.copy_from_slice(
            &handle.pin(page(no)).map_err(|error| io::Error::new(io::ErrorKind::Other, error))?,
        );
        Ok(())
    }

    fn write(&self, no: u64, bytes: &[u8]) -> io::Result<()> {
        let handle = self.0.lock().unwrap();
        handle
            .write(page(no), 0, bytes)
            .map_err(|error| io::Error::new(io::ErrorKind::Other, error))
    }

    fn sync(&self) -> io::Result<()> {
        let handle = self.0.lock().unwrap();
        handle.write_back_all().map_err(|error| io::Error::new(io::ErrorKind::Other, error))
    }
}

#[test]
fn a_device_may_use_another_replica() {
    let memory = Memory::default();
    let below = over(memory.device());
    let device = Device::own(Below(Mutex::new(below)), PAGES);
    let handle = Handle::open(Options::new(2).frames(4).device(device)).unwrap();
    for no in 0..20 {
        handle.write(page(no), 0, &[no as u8]).unwrap();
    }
    for no in 0..20 {
        assert_eq!(handle.pin(page(no)).unwrap()[0], no as u8);
    }
    handle.write_back_all().unwrap();
    handle.close().unwrap();
    assert_eq!(memory.first(19), Some(19));
}
