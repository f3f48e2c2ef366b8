//! Write-back, histories, gossip, dumps and figures.
use std::fs::File;
use std::os::raw::{c_int, c_void};
use std::os::unix::io::AsRawFd;
use std::time::Duration;

use crate::error::result;
use crate::{ffi, Error, Handle, Page, Reference, Result};

/// Where [`Handle::send`] is in a bucket.
#[derive(Clone, Copy)]
pub struct Sending(ffi::Sending);

impl Sending {
    /// From the beginning of a bucket (0 to 63): the pages that have a stamp from this time on. All
    /// have one from 0 on.
    pub fn new(bucket: u8, since: u64) -> Sending {
        let after = Page { dev: 0, no: 0 };
        Sending(ffi::Sending { since, after, bucket, has_after: false, more: false })
    }

    /// Whether more follows what was sent last.
    pub fn has_more(&self) -> bool {
        self.0.more
    }
}

/// What the pools did since the replica was opened, and have now.
#[derive(Clone, Copy, Debug, PartialEq, Eq)]
#[non_exhaustive]
pub struct Counters {
    /// Pins of a page that was in a frame.
    pub hits: u64,
    /// Pins of a page that was in none.
    pub misses: u64,
    /// Pages that left their frame for another one.
    pub evictions: u64,
    /// Writes of pages that did not fail.
    pub written_back: u64,
    /// Pages in frames.
    pub resident: u64,
    /// Those of them that are not written back.
    pub dirty: u64,
}

/// What was asked of a device.
#[derive(Clone, Copy, Debug, PartialEq, Eq)]
#[non_exhaustive]
pub struct DeviceCounters {
    /// Reads of pages.
    pub reads: u64,
    /// Writes of pages, those that were skipped, too.
    pub writes: u64,
    /// Flushes. Shards share one.
    pub flushes: u64,
    /// How many of all these failed.
    pub failures: u64,
}

/// A call of a device that failed.
#[derive(Clone, Copy, Debug, PartialEq, Eq)]
pub struct Failure {
    /// What failed.
    pub what: Failed,
    /// The page; of a flush its number is 0.
    pub page: Page,
    /// The errno; EAGAIN (11) if the page was skipped.
    pub error: i32,
    /// How many failed or were skipped in the same call of the handle.
    pub count: u64,
}

/// What a device was asked for.
#[derive(Clone, Copy, Debug, PartialEq, Eq)]
#[allow(missing_docs)]
pub enum Failed {
    Read,
    Write,
    Flush,
}

impl Handle {
    /// Writes all dirty pages, and then flushes the devices.
    ///
    /// Refused: [`Error::WriteFault`] if a write or a flush failed, [`Error::Skipped`] if a device
    /// skipped pages. All else was written.
    pub fn write_back_all(&self) -> Result<()> {
        let raw = self.enter()?;
        // SAFETY: the handle is open; no page has its bytes written to but by the library itself.
        result(unsafe { ffi::warm_write_back_all(raw) })
    }

    /// Writes at most this many dirty pages, flushes nothing, and returns how many are left.
    ///
    /// Refused: [`Error::WriteFault`], [`Error::Skipped`].
    pub fn write_back_some(&self, limit: usize) -> Result<usize> {
        let raw = self.enter()?;
        let mut left = 0;
        // SAFETY: as above.
        result(unsafe { ffi::warm_write_back_some(raw, limit, &mut left) })?;
        Ok(left)
    }

    /// Writes a page if it is in a frame and dirty, flushes nothing, and returns whether it did.
    ///
    /// Refused: [`Error::WriteFault`], [`Error::Skipped`].
    pub fn write_back_page(&self, page: Page) -> Result<bool> {
        let raw = self.enter()?;
        let mut written = false;
        // SAFETY: as above.
        result(unsafe { ffi::warm_write_back_page(raw, page, &mut written) })?;
        Ok(written)
    }

    /// [`Handle::write_back_all`] for one device.
    ///
    /// Refused: [`Error::NoDevice`], [`Error::WriteFault`], [`Error::Skipped`].
    pub fn flush_device(&self, dev: u16) -> Result<()> {
        let raw = self.enter()?;
        // SAFETY: as above.
        result(unsafe { ffi::warm_flush_device(raw, dev) })
    }

    /// Makes the pages of a device from this number on leave their frames. What is dirty is lost.
    ///
    /// Refused: [`Error::NoDevice`], [`Error::Pinned`].
    pub fn forget_pages(&self, dev: u16, from: u64) -> Result<()> {
        let raw = self.enter()?;
        // SAFETY: the handle is open. No pinned page leaves.
        result(unsafe { ffi::warm_forget_pages(raw, dev, from) })
    }

    /// Whether a page is in a frame.
    pub fn is_resident(&self, page: Page) -> Result<bool> {
        let raw = self.enter()?;
        let mut resident = false;
        // SAFETY: the handle is open.
        result(unsafe { ffi::warm_resident(raw, page, &mut resident) })?;
        Ok(resident)
    }

    /// The pages of a shard that would be evicted next, in order, 64 at most.
    ///
    /// Refused: [`Error::NoShard`], [`Error::AllPinned`] if too many pages are pinned to look.
    pub fn victims(&self, shard: usize) -> Result<Vec<Page>> {
        let raw = self.enter()?;
        pages(ffi::VICTIMS, |pages, room, count| {
            // SAFETY: the handle is open, and the pages have this room.
            unsafe { ffi::warm_victims(raw, shard, pages, room, count) }
        })
    }

    /// A step of a warm-up: reads the hottest page that is in no frame, and returns it. None: the
    /// pool is warm.
    ///
    /// Refused: [`Error::Memory`], [`Error::AllPinned`], [`Error::PinsFull`], [`Error::ReadFault`],
    /// [`Error::EvictFault`].
    pub fn step(&self) -> Result<Option<Page>> {
        let raw = self.enter()?;
        let (mut found, mut page) = (false, Page { dev: 0, no: 0 });
        // SAFETY: the handle is open.
        result(unsafe { ffi::warm_step(raw, &mut found, &mut page) })?;
        Ok(found.then_some(page))
    }

    /// Loads a page that is in no frame, without a pin.
    ///
    /// Refused: as [`Handle::pin`], but for [`Error::Latched`].
    pub fn prefetch(&self, page: Page) -> Result<()> {
        let raw = self.enter()?;
        // SAFETY: the handle is open.
        result(unsafe { ffi::warm_prefetch(raw, page) })
    }

    /// Adds references, in any order; a repeated one changes nothing.
    ///
    /// Refused: [`Error::BadReplica`], [`Error::Memory`].
    pub fn absorb(&self, references: &[Reference]) -> Result<()> {
        let raw = self.enter()?;
        // SAFETY: the handle is open.
        result(unsafe { ffi::warm_absorb(raw, references.as_ptr(), references.len()) })
    }

    /// Forgets stamps before this time, and returns the horizon, which may be later.
    pub fn raise(&self, time: u64) -> Result<u64> {
        let raw = self.enter()?;
        let mut horizon = 0;
        // SAFETY: the handle is open.
        result(unsafe { ffi::warm_raise(raw, time, &mut horizon) })?;
        Ok(horizon)
    }

    /// The hottest pages of the history, hottest first, this many at most.
    ///
    /// Refused: [`Error::Memory`].
    pub fn list(&self, room: usize) -> Result<Vec<Page>> {
        let raw = self.enter()?;
        let room = room.min(self.history_length()?);
        pages(room, |pages, room, count| {
            // SAFETY: the handle is open, and the pages have this room.
            unsafe { ffi::warm_list(raw, pages, room, count) }
        })
    }

    /// How many pages the history knows.
    pub fn history_length(&self) -> Result<usize> {
        let raw = self.enter()?;
        let mut length = 0;
        // SAFETY: the handle is open.
        result(unsafe { ffi::warm_history_length(raw, &mut length) })?;
        Ok(length)
    }

    /// Writes the message with the digests of the history, in place of what was in it.
    ///
    /// Refused: [`Error::Memory`].
    pub fn offer(&self, message: &mut Vec<u8>) -> Result<()> {
        let raw = self.enter()?;
        fill(message, |bytes, room, length| {
            // SAFETY: the handle is open, and the bytes have this room.
            unsafe { ffi::warm_offer(raw, bytes, room, length) }
        })
    }

    /// Takes in a message. Its answers wait at this handle, in place of those before.
    ///
    /// Refused: [`Error::Truncated`] to [`Error::BadOrder`], [`Error::LateHorizon`],
    /// [`Error::LateStamp`], [`Error::TooManyPages`], [`Error::Memory`].
    pub fn receive(&self, message: &[u8]) -> Result<()> {
        let raw = self.enter()?;
        // SAFETY: the handle is open.
        result(unsafe { ffi::warm_receive(raw, message.as_ptr().cast::<c_void>(), message.len()) })
    }

    /// Writes the next answer, in place of what was in the message, and returns whether there was
    /// one.
    ///
    /// Refused: [`Error::Memory`]; the same answer is then next.
    pub fn next_answer(&self, message: &mut Vec<u8>) -> Result<bool> {
        let raw = self.enter()?;
        fill(message, |bytes, room, length| {
            // SAFETY: the handle is open, and the bytes have this room.
            unsafe { ffi::warm_next_answer(raw, bytes, room, length) }
        })?;
        Ok(!message.is_empty())
    }

    /// Writes the message with the next entries of a bucket, in place of what was in it.
    ///
    /// Refused: [`Error::BadBucket`], [`Error::Memory`].
    pub fn send(&self, sending: &mut Sending, message: &mut Vec<u8>) -> Result<()> {
        let raw = self.enter()?;
        fill(message, |bytes, room, length| {
            // SAFETY: the handle is open, and the bytes have this room.
            unsafe { ffi::warm_send(raw, &mut sending.0, bytes, room, length) }
        })
    }

    /// Sets a limit: messages with a later time are refused from now on.
    pub fn limit(&self, time: u64) -> Result<()> {
        let raw = self.enter()?;
        // SAFETY: the handle is open.
        result(unsafe { ffi::warm_limit(raw, time) })
    }

    /// Sets two more: of horizons, and of the pages that the history knows.
    pub fn limit_history(&self, horizon: u64, pages: usize) -> Result<()> {
        let raw = self.enter()?;
        // SAFETY: the handle is open.
        result(unsafe { ffi::warm_limit_history(raw, horizon, pages) })
    }

    /// Sets how long later calls of this handle wait for reads and writes of other calls, from their
    /// first wait on: in whole milliseconds, at first without a limit. After that a pin, prefetch,
    /// write or warm-up step is refused with [`Error::Busy`], and may be called again.
    pub fn limit_waits(&self, limit: Duration) -> Result<()> {
        let raw = self.enter()?;
        let milliseconds = u64::try_from(limit.as_millis()).unwrap_or(u64::MAX);
        // SAFETY: the handle is open.
        result(unsafe { ffi::warm_limit_waits(raw, milliseconds) })
    }

    /// Writes a dump of the history to an empty file, and syncs it.
    ///
    /// Refused: [`Error::Memory`], [`Error::DumpNotWritten`]; the file may have any part.
    pub fn save(&self, file: &File) -> Result<()> {
        let raw = self.enter()?;
        // SAFETY: the handle is open. Whatever the file is, only the dump depends on it.
        result(unsafe { ffi::warm_save(raw, file.as_raw_fd()) })
    }

    /// Joins the history in a file to the replica's.
    ///
    /// Refused: [`Error::BadMagic`] to [`Error::BadOrder`], [`Error::CutShort`] to
    /// [`Error::MoreFollows`], [`Error::DumpNotRead`], [`Error::Memory`].
    pub fn load(&self, file: &File) -> Result<()> {
        let raw = self.enter()?;
        let length = file.metadata().map_err(|_| Error::DumpNotRead)?.len();
        // SAFETY: the handle is open. Whatever the file is, its bytes are looked at as a dump's.
        result(unsafe { ffi::warm_load(raw, file.as_raw_fd(), length) })
    }

    /// What the pools did, and have.
    pub fn counts(&self) -> Result<Counters> {
        let raw = self.enter()?;
        let mut c = ffi::Counters::default();
        // SAFETY: the handle is open.
        result(unsafe { ffi::warm_counts(raw, &mut c) })?;
        let ffi::Counters { hits, misses, evictions, written_back, resident, dirty, .. } = c;
        Ok(Counters { hits, misses, evictions, written_back, resident, dirty })
    }

    /// What was asked of a device.
    ///
    /// Refused: [`Error::NoDevice`].
    pub fn device_counts(&self, dev: u16) -> Result<DeviceCounters> {
        let raw = self.enter()?;
        let mut c = ffi::DeviceCounters::default();
        // SAFETY: the handle is open.
        result(unsafe { ffi::warm_device_counts(raw, dev, &mut c) })?;
        let ffi::DeviceCounters { reads, writes, flushes, failures, .. } = c;
        Ok(DeviceCounters { reads, writes, flushes, failures })
    }

    /// The call of a device that failed last in a call of this handle, if one did.
    pub fn last_failure(&self) -> Result<Option<Failure>> {
        let raw = self.enter()?;
        let (mut found, mut failure) = (false, ffi::Failure::default());
        // SAFETY: the handle is open.
        result(unsafe { ffi::warm_last_failure(raw, &mut found, &mut failure) })?;
        let what = match failure.what {
            ffi::FAILED_READ => Failed::Read,
            ffi::FAILED_WRITE => Failed::Write,
            _ => Failed::Flush,
        };
        let page = Page { dev: failure.dev, no: failure.no };
        Ok(found.then_some(Failure { what, page, error: failure.error, count: failure.count }))
    }
}

/// A list of pages that a call writes into this room.
fn pages(
    room: usize,
    write: impl FnOnce(*mut Page, usize, *mut usize) -> c_int,
) -> Result<Vec<Page>> {
    let (mut pages, mut count) = (Vec::new(), 0);
    pages.try_reserve_exact(room).map_err(|_| Error::Memory)?;
    pages.resize(room, Page { dev: 0, no: 0 });
    result(write(pages.as_mut_ptr(), room, &mut count))?;
    pages.truncate(count);
    Ok(pages)
}

/// A message that a call writes. If the call is refused, it is empty.
fn fill(
    message: &mut Vec<u8>,
    write: impl FnOnce(*mut c_void, usize, *mut usize) -> c_int,
) -> Result<()> {
    let mut length = 0;
    message.clear();
    message.try_reserve(ffi::MESSAGE_ROOM).map_err(|_| Error::Memory)?;
    message.resize(ffi::MESSAGE_ROOM, 0);
    let written = result(write(message.as_mut_ptr().cast::<c_void>(), message.len(), &mut length));
    message.truncate(if written.is_ok() { length } else { 0 });
    written
}
