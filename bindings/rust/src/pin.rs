//! Pins of pages, and the latches that keep readers and writers of their bytes apart.
use std::fmt;
use std::ops::{Deref, DerefMut};
use std::sync::atomic::{AtomicU64, Ordering};
use std::thread;
use std::time::{Duration, Instant};

use crate::error::result;
use crate::{ffi, Handle};

/// A latch of a frame: how many read the bytes of its page, or `WRITER`, and above that which page,
/// by its generation. The library keeps the bytes of a pinned page where they are, and changes them
/// in `warm_write` and `warm_pin_zeroed` alone, which the crate calls for a page with a
/// `WriteLatch`, or if nobody can have a pin. Who has the latch has a pin, so that no other page
/// gets the frame. So the latch of another page is of no account: its pin was leaked, and the
/// handle of that has ended.
#[derive(Default)]
pub(crate) struct Latch(AtomicU64);

const COUNT_BITS: u32 = 32;
const WRITER: u64 = (1 << COUNT_BITS) - 1;
const MOST_READERS: u64 = WRITER - 1;

/// The longest time between two looks at a latch.
const NAP: Duration = Duration::from_micros(50);

fn latch_at(generation: u64, count: u64) -> u64 {
    generation << COUNT_BITS | count
}

/// The count of a latch, for the page of this generation.
fn count_in(latch: u64, generation: u64) -> u64 {
    let count = latch & WRITER;
    if latch == latch_at(generation, count) {
        count
    } else {
        0
    }
}

impl Latch {
    pub fn read(&self, generation: u64, patience: Duration) -> Option<ReadLatch<'_>> {
        let add = |readers| {
            if readers < MOST_READERS {
                Some(readers + 1)
            } else {
                None
            }
        };
        self.takes(generation, patience, add).then(|| ReadLatch(self))
    }

    pub fn write(&self, generation: u64, patience: Duration) -> Option<WriteLatch<'_>> {
        let claim = |count| if count == 0 { Some(WRITER) } else { None };
        self.takes(generation, patience, claim).then(|| WriteLatch(self))
    }

    /// The latch if nobody can use one: who has it has leaked it.
    pub fn seize(&self, generation: u64) -> WriteLatch<'_> {
        self.0.swap(latch_at(generation, WRITER), Ordering::Acquire);
        WriteLatch(self)
    }

    /// Whether the latch of this page has the next count before the time has passed.
    fn takes(
        &self,
        generation: u64,
        patience: Duration,
        next: impl Fn(u64) -> Option<u64>,
    ) -> bool {
        let changed = |latch| {
            let count = next(count_in(latch, generation))?;
            Some(latch_at(generation, count))
        };
        within(patience, || {
            self.0.fetch_update(Ordering::Acquire, Ordering::Relaxed, changed).is_ok()
        })
    }
}

/// Whether it succeeds before the time has passed.
fn within(patience: Duration, mut succeeds: impl FnMut() -> bool) -> bool {
    if succeeds() {
        return true;
    }
    let begin = Instant::now();
    while begin.elapsed() < patience {
        thread::sleep(NAP);
        if succeeds() {
            return true;
        }
    }
    false
}

pub(crate) struct ReadLatch<'a>(&'a Latch);

impl Drop for ReadLatch<'_> {
    fn drop(&mut self) {
        self.0 .0.fetch_sub(1, Ordering::Release);
    }
}

pub(crate) struct WriteLatch<'a>(&'a Latch);

impl Drop for WriteLatch<'_> {
    fn drop(&mut self) {
        self.0 .0.store(0, Ordering::Release);
    }
}

/// One pin of a page, which is taken back when it is dropped.
pub(crate) struct Pinned<'h> {
    pub handle: &'h Handle,
    pub slot: ffi::Slot,
}

impl Drop for Pinned<'_> {
    fn drop(&mut self) {
        // in a call of a device the pin stays, and with it the page
        if let Ok(raw) = self.handle.enter() {
            // SAFETY: the handle is open, and the pin is its own.
            let _ = result(unsafe { ffi::warm_unpin(raw, self.slot) });
        }
    }
}

/// A pinned page whose bytes may be read: they stay where they are, and nobody writes to them,
/// until it is dropped. A pin is no reference: hand one in by [`Handle::absorb`].
///
/// It belongs to its handle, and stays in the thread that has the handle. It cannot outlive it:
///
/// ```compile_fail,E0515
/// fn outlives(handle: warm::Handle) -> warm::Pin<'static> {
///     handle.pin(warm::Page { dev: 0, no: 0 }).unwrap()
/// }
/// ```
///
/// ```compile_fail,E0277
/// fn sends(handle: &warm::Handle) {
///     let pin = handle.pin(warm::Page { dev: 0, no: 0 }).unwrap();
///     std::thread::scope(|scope| drop(scope.spawn(move || pin.len())));
/// }
/// ```
///
/// ```compile_fail,E0502
/// fn fills_with_zeros(handle: &mut warm::Handle) {
///     let pin = handle.pin(warm::Page { dev: 0, no: 0 }).unwrap();
///     drop(handle.pin_zeroed(warm::Page { dev: 0, no: 0 }));
///     println!("{}", pin[0]);
/// }
/// ```
#[must_use]
pub struct Pin<'h> {
    // dropped in this order
    pub(crate) bytes: *const u8,
    pub(crate) _latch: ReadLatch<'h>,
    pub(crate) pinned: Pinned<'h>,
}

impl Pin<'_> {
    /// Whether the page was in a frame already.
    pub fn is_hit(&self) -> bool {
        self.pinned.slot.hit == 1
    }
}

impl Deref for Pin<'_> {
    type Target = [u8];

    fn deref(&self) -> &[u8] {
        let length = self.pinned.handle.page_size();
        // SAFETY: the library wrote where the page's bytes are, and they stay there while it is
        // pinned. With the latch nobody writes to them.
        unsafe { std::slice::from_raw_parts(self.bytes, length) }
    }
}

impl fmt::Debug for Pin<'_> {
    fn fmt(&self, f: &mut fmt::Formatter<'_>) -> fmt::Result {
        f.debug_struct("Pin").field("hit", &self.is_hit()).finish_non_exhaustive()
    }
}

/// A pinned page that nobody else reads or writes. It is a copy of the page's bytes, which goes
/// into the page when it is dropped, if it was written to: so a write-back by another thread finds
/// the page before or after, and needs not wait. The page is dirty then. A panic that drops it
/// writes what it has by then.
///
/// Its drop is a call of its handle. In a call of a device of the replica itself, which may not use
/// the handle, or if the thread has less stack left than a call needs, what was written is lost,
/// and the page stays pinned.
#[must_use]
pub struct PinMut<'h> {
    // dropped in this order, after drop()
    pub(crate) bytes: Vec<u8>,
    pub(crate) is_changed: bool,
    pub(crate) latch: WriteLatch<'h>,
    pub(crate) pinned: Pinned<'h>,
}

impl PinMut<'_> {
    /// Whether the page was in a frame already.
    pub fn is_hit(&self) -> bool {
        self.pinned.slot.hit == 1
    }
}

impl Deref for PinMut<'_> {
    type Target = [u8];

    fn deref(&self) -> &[u8] {
        &self.bytes
    }
}

impl DerefMut for PinMut<'_> {
    fn deref_mut(&mut self) -> &mut [u8] {
        self.is_changed = true;
        &mut self.bytes
    }
}

impl Drop for PinMut<'_> {
    fn drop(&mut self) {
        let handle = self.pinned.handle;
        if self.is_changed {
            // it cannot fail otherwise: the page is pinned, and has these many bytes
            let _ = handle.write_latched(self.pinned.slot, 0, &self.bytes, &self.latch);
        }
        handle.keep_buffer(std::mem::take(&mut self.bytes));
    }
}

impl fmt::Debug for PinMut<'_> {
    fn fmt(&self, f: &mut fmt::Formatter<'_>) -> fmt::Result {
        f.debug_struct("PinMut").field("changed", &self.is_changed).finish_non_exhaustive()
    }
}
