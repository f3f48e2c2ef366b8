//! Handles: open, attach, close; pages and write-back.
use std::cell::Cell;
use std::fmt;
use std::fs::File;
use std::mem;
use std::os::raw::{c_int, c_void};
use std::os::unix::io::AsRawFd;
use std::ptr::{self, NonNull};
use std::sync::atomic::{AtomicU64, Ordering};
use std::sync::Arc;
use std::time::Duration;

use crate::device::{self, Context, Device, Kind};
use crate::error::result;
use crate::pin::{Latch, Pinned, WriteLatch};
use crate::{ffi, stack, Error, Page, Pin, PinMut, Result};

/// What a replica is opened with.
#[must_use]
pub struct Options {
    replica: u32,
    shards: usize,
    frames: usize,
    page_size: usize,
    devices: Vec<Device>,
    latch_wait: Duration,
}

impl Options {
    /// A replica of this number, 1 to 64, of one shard, with 1,024 frames for pages of 4,096 bytes.
    /// Without devices it is a history alone.
    pub fn new(replica: u32) -> Options {
        let devices = Vec::new();
        let latch_wait = Duration::ZERO;
        Options { replica, shards: 0, frames: 0, page_size: 0, devices, latch_wait }
    }

    /// 1, 2, 4, 8, 16, 32 or 64 shards.
    pub fn shards(mut self, shards: usize) -> Options {
        self.shards = shards;
        self
    }

    /// The frames of all shards, 1 to 65,536 for each.
    pub fn frames(mut self, frames: usize) -> Options {
        self.frames = frames;
        self
    }

    /// The bytes of a page, 1 to 65,536.
    pub fn page_size(mut self, bytes: usize) -> Options {
        self.page_size = bytes;
        self
    }

    /// One more device. They are numbered from 0.
    pub fn device(mut self, device: Device) -> Options {
        self.devices.push(device);
        self
    }

    /// How long a call waits for the bytes of a page that are in use, before it is refused with
    /// [`Error::Latched`]: at first not at all. A thread that waits for a pin of its own waits in
    /// vain.
    pub fn latch_wait(mut self, patience: Duration) -> Options {
        self.latch_wait = patience;
        self
    }
}

/// What a replica was opened with, with defaults in place.
#[derive(Clone, Copy, Debug, PartialEq, Eq)]
#[non_exhaustive]
pub struct Settings {
    /// The number of the replica.
    pub replica: u32,
    /// How many shards it has.
    pub shards: usize,
    /// The frames of all shards.
    pub frames: usize,
    /// The bytes of a page.
    pub page_size: usize,
}

/// A replica that is open. It ends when its last handle is dropped.
struct Replica {
    /// The handle that opened it. The first [`Handle`] uses it, and then who ends the replica.
    opener: NonNull<ffi::Warm>,
    /// Its number among those that this process opened.
    number: u64,
    settings: Settings,
    latches: Vec<Latch>,
    latch_wait: Duration,
    devices: Devices,
}

/// What the library has pointers to, or descriptors of, until the replica has ended.
#[derive(Default)]
struct Devices {
    /// Each from a box of its own.
    contexts: Vec<NonNull<Context>>,
    files: Vec<File>,
}

impl Drop for Devices {
    fn drop(&mut self) {
        for context in self.contexts.drain(..) {
            // SAFETY: it came from a box, and the library has it no more.
            drop(unsafe { Box::from_raw(context.as_ptr()) });
        }
    }
}

static OPENED: AtomicU64 = AtomicU64::new(0);

// SAFETY: the opener is used by one thread at a time: that of the first Handle, which is not Sync,
// and after it by who has the only Arc. Contexts have devices, which are Send and Sync.
unsafe impl Send for Replica {}
unsafe impl Sync for Replica {}

impl Drop for Replica {
    fn drop(&mut self) {
        let opener = self.opener.as_ptr();
        // SAFETY: nobody else has the replica, and the opener is a handle, open or closed.
        let has_ended = device::may_call(self.number).is_ok()
            && unsafe {
                ffi::warm_write_back_all(opener);
                ffi::warm_close(opener) == 0 || ffi::warm_abandon(opener) == 0
            };
        if has_ended {
            // SAFETY: it is closed, and came from a box.
            drop(unsafe { Box::from_raw(opener) });
        } else {
            mem::forget(mem::take(&mut self.devices)); // the library still has them
        }
    }
}

/// A handle of a replica, for one thread at a time: it may be moved to another thread, and is not
/// shared. [`Handle::attach`] makes one for another thread.
///
/// The replica ends with its last handle. What is dirty then is written back; an error of that is
/// lost when the handle is dropped, and reported by [`Handle::close`].
///
/// ```compile_fail,E0277
/// fn shares(handle: &warm::Handle) {
///     std::thread::scope(|scope| drop(scope.spawn(|| handle.write_back_all())));
/// }
/// ```
pub struct Handle {
    raw: NonNull<ffi::Warm>,
    /// Whether it is the one that opened the replica.
    is_opener: bool,
    replica: Arc<Replica>,
    /// The bytes of the last `PinMut`.
    buffer: Cell<Vec<u8>>,
}

// SAFETY: a handle of the library may be used by different threads, one at a time and in order,
// which a move between threads makes sure of.
unsafe impl Send for Handle {}

impl fmt::Debug for Handle {
    fn fmt(&self, f: &mut fmt::Formatter<'_>) -> fmt::Result {
        f.debug_struct("Handle").field("settings", &self.replica.settings).finish_non_exhaustive()
    }
}

/// A handle that could not be closed, as it was.
#[derive(Debug)]
pub struct CloseError {
    /// The handle.
    pub handle: Handle,
    /// Why.
    pub error: Error,
}

impl fmt::Display for CloseError {
    fn fmt(&self, f: &mut fmt::Formatter<'_>) -> fmt::Result {
        self.error.fmt(f)
    }
}

impl std::error::Error for CloseError {}

impl Handle {
    /// Opens a replica. If it is refused, the devices are dropped.
    ///
    /// Refused: [`Error::BadShards`], [`Error::UnevenFrames`], [`Error::BadReplica`],
    /// [`Error::BadFrames`], [`Error::BadPageSize`], [`Error::BadDevice`], [`Error::Appends`],
    /// [`Error::SameFile`], [`Error::Memory`], [`Error::SmallStack`].
    pub fn open(options: Options) -> Result<Handle> {
        stack::check()?;
        let number = OPENED.fetch_add(1, Ordering::Relaxed);
        let mut devices = Devices::default();
        let listed = options.devices.into_iter().map(|device| devices.keep(device, number));
        let listed: Vec<ffi::Device> = listed.collect();
        let asked = ffi::Options {
            replica: options.replica,
            shards: options.shards,
            frames: options.frames,
            page_size: options.page_size,
            devices: listed.as_ptr(),
            device_count: listed.len(),
            ..ffi::Options::EMPTY
        };
        let opener = NonNull::from(Box::leak(Box::new(ffi::Warm::CLOSED)));
        let settings = Settings { replica: 0, shards: 1, frames: 0, page_size: 0 };
        // from here on it is its drop that closes
        let (latches, latch_wait) = (Vec::new(), options.latch_wait);
        let mut replica = Replica { opener, number, settings, latches, latch_wait, devices };
        // SAFETY: the handle is closed, in a box of its own; the devices stay as they are until the
        // replica has ended.
        result(unsafe { ffi::warm_open(opener.as_ptr(), &asked) })?;
        replica.settle()?;
        let replica = Arc::new(replica);
        Ok(Handle { raw: opener, is_opener: true, replica, buffer: Cell::default() })
    }

    /// A handle for another thread. Its pins, the answers that wait and its last failure are its
    /// own; all else is the replica's.
    ///
    /// Refused: [`Error::Memory`].
    pub fn attach(&self) -> Result<Handle> {
        let from = self.enter()?;
        let raw = NonNull::from(Box::leak(Box::new(ffi::Warm::CLOSED)));
        let replica = Arc::clone(&self.replica);
        let attached = Handle { raw, is_opener: false, replica, buffer: Cell::default() };
        // SAFETY: one handle is open, and the other one closed, in a box of its own.
        result(unsafe { ffi::warm_attach(from, raw.as_ptr()) })?;
        Ok(attached)
    }

    /// Closes the handle. With the last handle the replica ends, and loses nothing: call
    /// [`Handle::write_back_all`] before. To be sure that it is the last one, close the handle that
    /// opened the replica after the threads of the others were joined.
    ///
    /// Refused, with the handle in the error: [`Error::Attached`] of the handle that opened the
    /// replica if there are others; [`Error::PinsLeft`] if a pin was leaked (`mem::forget`); of the
    /// last one [`Error::Dirty`], and [`Error::WriteFault`] if a flush fails.
    pub fn close(self) -> std::result::Result<(), CloseError> {
        self.end(ffi::warm_close)
    }

    /// Closes the handle by force. With the handle that opened the replica it ends, or with the
    /// last one, and what is dirty is lost.
    ///
    /// Refused, with the handle in the error: [`Error::Attached`].
    pub fn abandon(self) -> std::result::Result<(), CloseError> {
        self.end(ffi::warm_abandon)
    }

    fn end(mut self, how: End) -> std::result::Result<(), CloseError> {
        match self.try_end(how) {
            Ok(()) => Ok(()),
            Err(error) => Err(CloseError { handle: self, error }),
        }
    }

    /// Ends it; its drop then finds it closed. An attached one that is the last has the opener's
    /// place from then on.
    fn try_end(&mut self, how: End) -> Result<()> {
        let mut raw = self.enter()?;
        if !self.is_opener {
            // SAFETY: the handle is open.
            result(unsafe { how(raw) })?;
            if Arc::get_mut(&mut self.replica).is_none() {
                return Ok(());
            }
            // SAFETY: it is closed, and came from a box; from here on nobody has it.
            drop(unsafe { Box::from_raw(raw) });
            self.raw = self.replica.opener;
            self.is_opener = true;
            raw = self.raw.as_ptr();
        }
        // SAFETY: the handle is open, and no other one uses it.
        result(unsafe { how(raw) })
    }

    /// What the replica was opened with.
    pub fn settings(&self) -> Settings {
        self.replica.settings
    }

    /// The handle, for a call of this thread.
    /// Refused: [`Error::InDevice`], [`Error::SmallStack`].
    pub(crate) fn enter(&self) -> Result<*mut ffi::Warm> {
        device::may_call(self.replica.number)?;
        Ok(self.raw.as_ptr())
    }

    pub(crate) fn page_size(&self) -> usize {
        self.replica.settings.page_size
    }

    pub(crate) fn keep_buffer(&self, bytes: Vec<u8>) {
        self.buffer.set(bytes);
    }

    /// Pins a page to be read.
    ///
    /// Refused: [`Error::NoDevice`], [`Error::NoPage`], [`Error::PinsFull`], [`Error::AllPinned`],
    /// [`Error::ReadFault`], [`Error::EvictFault`], [`Error::Latched`].
    pub fn pin(&self, page: Page) -> Result<Pin<'_>> {
        let raw = self.enter()?;
        let (mut slot, mut bytes) = (ffi::Slot::default(), ptr::null());
        // SAFETY: the handle is open.
        result(unsafe { ffi::warm_pin_bytes(raw, page, &mut slot, &mut bytes) })?;
        let pinned = Pinned { handle: self, slot };
        let latch = self.latch_of(slot).read(slot.generation, self.replica.latch_wait);
        let latch = latch.ok_or(Error::Latched)?;
        Ok(Pin { bytes, _latch: latch, pinned })
    }

    /// Pins a page to be written to.
    ///
    /// Refused: as [`Handle::pin`]; [`Error::Memory`].
    pub fn pin_mut(&self, page: Page) -> Result<PinMut<'_>> {
        let raw = self.enter()?;
        let mut bytes = self.empty_page()?;
        let (pinned, latch) = self.pin_latched(raw, page)?;
        // SAFETY: the handle is open, and the bytes are as many as are asked for.
        result(unsafe {
            ffi::warm_read(raw, pinned.slot, 0, bytes.as_mut_ptr().cast::<c_void>(), bytes.len())
        })?;
        Ok(PinMut { bytes, is_changed: false, latch, pinned })
    }

    /// Pins a page filled with zeros, to be written to. It is not read from its device, unless the
    /// replica has other handles.
    ///
    /// Refused: as [`Handle::pin_mut`].
    pub fn pin_zeroed(&mut self, page: Page) -> Result<PinMut<'_>> {
        let raw = self.enter()?;
        // The library fills the page at once. Nobody reads it: there is no other handle, and this
        // one has no pin but leaked ones, or it were borrowed.
        let is_alone = Arc::get_mut(&mut self.replica).is_some();
        let zeros = self.empty_page()?;
        let (pinned, latch) = if is_alone {
            let mut slot = ffi::Slot::default();
            // SAFETY: the handle is open.
            result(unsafe { ffi::warm_pin_zeroed(raw, page, &mut slot) })?;
            let pinned = Pinned { handle: self, slot };
            (pinned, self.latch_of(slot).seize(slot.generation))
        } else {
            self.pin_latched(raw, page)?
        };
        Ok(PinMut { bytes: zeros, is_changed: true, latch, pinned })
    }

    /// Writes bytes into a page, from byte at on: it is pinned meanwhile, and dirty then.
    ///
    /// Refused: as [`Handle::pin`]; [`Error::OutOfPage`].
    pub fn write(&self, page: Page, at: usize, bytes: &[u8]) -> Result<()> {
        let raw = self.enter()?;
        let (pinned, latch) = self.pin_latched(raw, page)?;
        let written = self.write_latched(pinned.slot, at, bytes, &latch);
        drop(latch); // before the pin
        written
    }

    pub(crate) fn write_latched(
        &self,
        slot: ffi::Slot,
        at: usize,
        bytes: &[u8],
        _latch: &WriteLatch<'_>,
    ) -> Result<()> {
        let raw = self.enter()?;
        // SAFETY: the handle is open, and nobody reads the page: it is latched. bytes are not of
        // it.
        result(unsafe {
            ffi::warm_write(raw, slot, at, bytes.as_ptr().cast::<c_void>(), bytes.len())
        })
    }

    /// Pins a page, and latches it for writing.
    fn pin_latched(&self, raw: *mut ffi::Warm, page: Page) -> Result<(Pinned<'_>, WriteLatch<'_>)> {
        let mut slot = ffi::Slot::default();
        // SAFETY: the handle is open.
        result(unsafe { ffi::warm_pin(raw, page, &mut slot) })?;
        let pinned = Pinned { handle: self, slot };
        let latch = self.latch_of(slot).write(slot.generation, self.replica.latch_wait);
        Ok((pinned, latch.ok_or(Error::Latched)?))
    }

    /// The latch of a slot that the library wrote.
    fn latch_of(&self, slot: ffi::Slot) -> &Latch {
        let settings = &self.replica.settings;
        let each = settings.frames / settings.shards;
        &self.replica.latches[usize::from(slot.shard) * each + slot.index as usize]
    }

    /// A page of zeros. Refused: [`Error::Memory`].
    fn empty_page(&self) -> Result<Vec<u8>> {
        let mut bytes = self.buffer.take();
        bytes.clear();
        bytes.try_reserve_exact(self.page_size()).map_err(|_| Error::Memory)?;
        bytes.resize(self.page_size(), 0);
        Ok(bytes)
    }
}

type End = unsafe extern "C" fn(*mut ffi::Warm) -> c_int;

impl Drop for Handle {
    fn drop(&mut self) {
        if self.is_opener {
            return; // the replica ends with its last handle
        }
        let raw = self.raw.as_ptr();
        // SAFETY: the handle is open or closed, and came from a box.
        unsafe {
            if self.enter().is_ok() && (ffi::warm_close(raw) == 0 || ffi::warm_abandon(raw) == 0) {
                drop(Box::from_raw(raw));
            } else {
                // it stays attached, and so the replica is not to end
                mem::forget(Arc::clone(&self.replica));
            }
        }
    }
}

impl Replica {
    /// Asks what it was opened with, and makes its latches.
    fn settle(&mut self) -> Result<()> {
        let mut options = ffi::Options::EMPTY;
        // SAFETY: the handle is open.
        result(unsafe { ffi::warm_settings(self.opener.as_ptr(), &mut options) })?;
        let ffi::Options { replica, shards, frames, page_size, .. } = options;
        self.settings = Settings { replica, shards, frames, page_size };
        self.latches.try_reserve_exact(frames).map_err(|_| Error::Memory)?;
        self.latches.resize_with(frames, Latch::default);
        Ok(())
    }
}

impl Devices {
    /// A device for the library, which has what it needs in here.
    fn keep(&mut self, device: Device, replica: u64) -> ffi::Device {
        let pages = device.pages;
        match device.kind {
            Kind::File(file) => {
                let fd = file.as_raw_fd();
                self.files.push(file);
                ffi::Device { pages, fd, ops: ptr::null(), context: ptr::null_mut() }
            }
            Kind::Own(device) => {
                let context = NonNull::from(Box::leak(Box::new(Context { device, replica })));
                self.contexts.push(context);
                ffi::Device {
                    pages,
                    fd: -1,
                    ops: &device::OPS,
                    context: context.as_ptr().cast::<c_void>(),
                }
            }
        }
    }
}
