//! Devices: files, and the caller's own.
use std::any::Any;
use std::cell::Cell;
use std::fs::File;
use std::io;
use std::os::raw::{c_int, c_void};
use std::panic::{catch_unwind, AssertUnwindSafe};
use std::{mem, ptr, slice};

use crate::{ffi, stack, Error, Result};

/// A device of the caller's own: it may check sums, encrypt, or be remote. Any thread that uses the
/// replica calls it, several at once. An error becomes the errno of the replica's last failure; one
/// without an errno is EIO (5). A call that panics has failed with EIO.
///
/// A call may use no handle of its replica: that is refused with [`Error::InDevice`]. A call that
/// waits for a thread that uses the replica may wait for ever.
pub trait PageDevice: Send + Sync + 'static {
    /// Fills all bytes, which are zero before, with those of a page.
    fn read(&self, no: u64, into: &mut [u8]) -> io::Result<()>;

    /// Writes all bytes of a page.
    fn write(&self, no: u64, bytes: &[u8]) -> io::Result<()>;

    /// Makes durable all writes that had returned.
    fn sync(&self) -> io::Result<()>;

    /// Asked before each write of a page, as for the log before the page.
    /// [`io::ErrorKind::WouldBlock`] skips the page: it stays dirty, and its write is tried again
    /// by a later call. Another error is the write's.
    fn before_write(&self, no: u64, bytes: &[u8]) -> io::Result<()> {
        let _ = (no, bytes);
        Ok(())
    }
}

/// A device of a replica.
pub struct Device {
    pub(crate) pages: u64,
    pub(crate) kind: Kind,
}

pub(crate) enum Kind {
    File(File),
    Own(Box<dyn PageDevice>),
}

impl Device {
    /// A file that is open for reading and writing, and not for appending. Page n is at byte n *
    /// page size; behind the end are zeros, and a write extends the file. The replica closes it
    /// when it ends. Nobody else writes to it until then: what they write may be lost, or not be
    /// seen.
    pub fn file(file: File, pages: u64) -> Device {
        Device { pages, kind: Kind::File(file) }
    }

    /// A device of the caller's own.
    pub fn own(device: impl PageDevice, pages: u64) -> Device {
        Device { pages, kind: Kind::Own(Box::new(device)) }
    }
}

/// What the functions of [`OPS`] get.
pub(crate) struct Context {
    pub device: Box<dyn PageDevice>,
    /// The number of the replica among those that this process opened.
    pub replica: u64,
}

pub(crate) static OPS: ffi::DeviceOps = ffi::DeviceOps {
    size: mem::size_of::<ffi::DeviceOps>(),
    read: Some(read),
    write: Some(write),
    sync: Some(sync),
    before_write: Some(before_write),
    after_write: None,
};

const EIO: c_int = 5;
const EAGAIN: c_int = 11;

// Each function below is called by the library with a context that it was opened with, which is
// there until the replica has ended, and with the bytes of one page, which nobody writes meanwhile;
// those of a read are a buffer's that nobody else sees, and that nobody may have written yet.

unsafe extern "C" fn read(
    context: *mut c_void,
    no: u64,
    into: *mut c_void,
    length: usize,
) -> c_int {
    // SAFETY: see above. A device that looks at the bytes before it fills them, or leaves some,
    // finds zeros.
    let (context, into) = unsafe {
        let into = into.cast::<u8>();
        into.write_bytes(0, length);
        (&*context.cast::<Context>(), slice::from_raw_parts_mut(into, length))
    };
    call(context, || context.device.read(no, into))
}

unsafe extern "C" fn write(
    context: *mut c_void,
    no: u64,
    bytes: *const c_void,
    length: usize,
) -> c_int {
    // SAFETY: see above.
    let (context, bytes) =
        unsafe { (&*context.cast::<Context>(), slice::from_raw_parts(bytes.cast::<u8>(), length)) };
    call(context, || context.device.write(no, bytes))
}

unsafe extern "C" fn sync(context: *mut c_void) -> c_int {
    // SAFETY: see above.
    let context = unsafe { &*context.cast::<Context>() };
    call(context, || context.device.sync())
}

unsafe extern "C" fn before_write(
    context: *mut c_void,
    no: u64,
    bytes: *const c_void,
    length: usize,
) -> c_int {
    // SAFETY: see above.
    let (context, bytes) =
        unsafe { (&*context.cast::<Context>(), slice::from_raw_parts(bytes.cast::<u8>(), length)) };
    call(context, || context.device.before_write(no, bytes))
}

/// A call of a device that a thread is in. They form a list, as a device may use another replica.
struct Inside {
    replica: u64,
    outer: *const Inside,
}

thread_local! {
    static INNERMOST: Cell<*const Inside> = const { Cell::new(ptr::null()) };
}

/// Makes a call of a device, and returns 0 or an errno. No panic leaves it.
fn call(context: &Context, made: impl FnOnce() -> io::Result<()>) -> c_int {
    let inside = Inside { replica: context.replica, outer: INNERMOST.with(Cell::get) };
    INNERMOST.with(|innermost| innermost.set(&inside));
    // what the error drops is the device's code, too
    let ended =
        catch_unwind(AssertUnwindSafe(|| made().map_or_else(|error| errno_of(&error), |()| 0)));
    INNERMOST.with(|innermost| innermost.set(inside.outer));
    ended.unwrap_or_else(|panic: Box<dyn Any + Send>| {
        mem::forget(panic); // its drop could panic
        EIO
    })
}

fn errno_of(error: &io::Error) -> c_int {
    match (error.raw_os_error(), error.kind()) {
        (Some(number), _) if number > 0 => number,
        (_, io::ErrorKind::WouldBlock) => EAGAIN,
        _ => EIO,
    }
}

/// Whether this thread may call the library for a replica.
/// Refused: [`Error::InDevice`], [`Error::SmallStack`].
pub(crate) fn may_call(replica: u64) -> Result<()> {
    let mut at = INNERMOST.with(Cell::get);
    while !at.is_null() {
        // SAFETY: it stands in a function of this thread that has not returned.
        let inside = unsafe { &*at };
        if inside.replica == replica {
            return Err(Error::InDevice);
        }
        at = inside.outer;
    }
    stack::check()
}
