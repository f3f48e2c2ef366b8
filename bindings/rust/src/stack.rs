//! Whether a thread has the stack that a call needs. Threads of Rust may have as little as 16 KiB,
//! and the library, which is no Rust, does not probe its stack: it could step over the guard page.
use std::cell::Cell;
use std::mem::MaybeUninit;
use std::os::raw::{c_int, c_void};
use std::ptr;

use crate::{Error, Result};

/// What warm.h asks, and some for the crate's own functions.
const NEEDED: usize = (128 + 4) * 1024;

/// pthread_attr_t, which has 56 bytes.
type Attributes = MaybeUninit<[u64; 8]>;

extern "C" {
    fn pthread_self() -> usize;
    fn pthread_getattr_np(thread: usize, attributes: *mut Attributes) -> c_int;
    fn pthread_attr_getstack(
        attributes: *const Attributes,
        lowest: *mut *mut c_void,
        size: *mut usize,
    ) -> c_int;
    fn pthread_attr_destroy(attributes: *mut Attributes) -> c_int;
}

thread_local! {
    /// The lowest address of the thread's stack and the one behind it; zeros before they are known.
    static BOUNDS: Cell<(usize, usize)> = const { Cell::new((0, 0)) };
}

/// Refused: [`Error::SmallStack`]. Of a stack that the system does not know, as that of a
/// coroutine, nothing is known here either: it is let pass.
pub fn check() -> Result<()> {
    let marker = 0u8;
    let here = ptr::addr_of!(marker) as usize;
    let mut bounds = BOUNDS.with(Cell::get);
    if bounds.1 == 0 {
        bounds = ask();
        BOUNDS.with(|known| known.set(bounds));
    }
    if here >= bounds.0 && here < bounds.1 && here - bounds.0 < NEEDED {
        return Err(Error::SmallStack);
    }
    Ok(())
}

/// The bounds; of the first thread without /proc they are not known, and its stack grows by itself.
fn ask() -> (usize, usize) {
    let mut attributes = Attributes::uninit();
    let (mut lowest, mut size) = (ptr::null_mut(), 0);
    // SAFETY: these functions write what is passed, of the calling thread, and keep no pointer.
    unsafe {
        if pthread_getattr_np(pthread_self(), &mut attributes) != 0 {
            return (usize::MAX, usize::MAX);
        }
        let status = pthread_attr_getstack(&attributes, &mut lowest, &mut size);
        pthread_attr_destroy(&mut attributes);
        if status != 0 {
            return (usize::MAX, usize::MAX);
        }
    }
    (lowest as usize, lowest as usize + size)
}
