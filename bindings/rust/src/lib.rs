//! Buffer pools with LRU-2 whose replicas take over warm, over the library that include/warm.h
//! describes: its words (page, frame, reference, message, shard) are those of docs/C.md.
//!
//! ```
//! use warm::{Device, Handle, Options, Page, Reference};
//!
//! # let path = std::env::temp_dir().join(format!("warm-doc-{}", std::process::id()));
//! let file = std::fs::OpenOptions::new().read(true).write(true).create(true).open(&path)?;
//! let handle = Handle::open(Options::new(1).frames(64).device(Device::file(file, 1000)))?;
//! let page = Page { dev: 0, no: 7 };
//! handle.pin_mut(page)?[0] = 42;
//! handle.absorb(&[Reference { replica: 1, dev: 0, no: 7, time: 1 }])?; // a pin is no reference
//! assert_eq!(handle.pin(page)?[0], 42);
//! handle.write_back_all()?;
//! handle.close()?;
//! # std::fs::remove_file(&path)?;
//! # Ok::<(), Box<dyn std::error::Error>>(())
//! ```
//!
//! No safe call reaches undefined behaviour: README.md says by what.
#![warn(missing_docs, rust_2018_idioms)]
#![deny(unsafe_op_in_unsafe_fn)]

mod device;
mod error;
mod ffi;
mod handle;
mod history;
#[cfg(test)]
mod layout;
mod pin;
mod stack;

pub use device::{Device, PageDevice};
pub use error::{Error, Result};
pub use handle::{CloseError, Handle, Options, Settings};
pub use history::{Counters, DeviceCounters, Failed, Failure, Sending};
pub use pin::{Pin, PinMut};

/// A page: the number of its device, in the order of the options, and its own on that device.
#[repr(C)]
#[derive(Clone, Copy, Debug, PartialEq, Eq, PartialOrd, Ord, Hash)]
pub struct Page {
    /// The device, from 0.
    pub dev: u16,
    /// The page, from 0.
    pub no: u64,
}

/// A replica (1 to 64) used a page at a time.
#[repr(C)]
#[derive(Clone, Copy, Debug, PartialEq, Eq, Hash)]
pub struct Reference {
    /// The replica.
    pub replica: u16,
    /// The device of the page.
    pub dev: u16,
    /// The page.
    pub no: u64,
    /// The time: a count, or nanoseconds.
    pub time: u64,
}

/// The version of the library.
pub fn version() -> &'static str {
    // SAFETY: it returns a text that is never freed.
    unsafe { std::ffi::CStr::from_ptr(ffi::warm_version()) }.to_str().unwrap_or("")
}
