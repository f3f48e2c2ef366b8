//! What the tests share.
#![allow(dead_code)]
use std::collections::HashMap;
use std::fs::{File, OpenOptions};
use std::io;
use std::path::PathBuf;
use std::sync::atomic::{AtomicU64, Ordering};
use std::sync::{Arc, Mutex};

use warm::{Device, Handle, Options, Page, PageDevice, Reference};

pub const PAGES: u64 = 100;

static NEXT: AtomicU64 = AtomicU64::new(0);

/// A path of a new file, which is removed with this value.
pub struct Path(pub PathBuf);

impl Path {
    pub fn new() -> Path {
        let name = format!("warm-{}-{}", std::process::id(), NEXT.fetch_add(1, Ordering::Relaxed));
        let path = Path(std::env::temp_dir().join(name));
        File::create(&path.0).unwrap();
        path
    }

    pub fn open(&self) -> File {
        OpenOptions::new().read(true).write(true).open(&self.0).unwrap()
    }

    pub fn device(&self) -> Device {
        Device::file(self.open(), PAGES)
    }
}

impl Drop for Path {
    fn drop(&mut self) {
        std::fs::remove_file(&self.0).unwrap();
    }
}

pub fn page(no: u64) -> Page {
    Page { dev: 0, no }
}

pub fn reference(no: u64, time: u64) -> Reference {
    Reference { replica: 1, dev: 0, no, time }
}

/// A replica of 16 frames over one device.
pub fn over(device: Device) -> Handle {
    Handle::open(Options::new(1).frames(16).device(device)).unwrap()
}

/// A device in memory. Its pages may be looked at, and what it does next may be set.
#[derive(Clone, Default)]
pub struct Memory {
    pub pages: Arc<Mutex<HashMap<u64, Vec<u8>>>>,
    pub calls: Arc<AtomicU64>,
    /// The number of the call that fails, from 1.
    pub failing: Arc<AtomicU64>,
    pub what: Arc<Mutex<Option<Hook>>>,
}

/// What is done in each call, by its name and the page; `Err` is its answer.
pub type Hook = Arc<dyn Fn(&str, u64) -> io::Result<()> + Send + Sync>;

impl Memory {
    pub fn device(&self) -> Device {
        Device::own(self.clone(), PAGES)
    }

    pub fn set(&self, hook: impl Fn(&str, u64) -> io::Result<()> + Send + Sync + 'static) {
        *self.what.lock().unwrap() = Some(Arc::new(hook));
    }

    pub fn heal(&self) {
        *self.what.lock().unwrap() = None;
        self.failing.store(0, Ordering::SeqCst);
    }

    /// The first byte of a page.
    pub fn first(&self, no: u64) -> Option<u8> {
        self.pages.lock().unwrap().get(&no).map(|bytes| bytes[0])
    }

    fn asked(&self, call: &str, no: u64) -> io::Result<()> {
        let hook = self.what.lock().unwrap().clone(); // it may panic, or come back
        if let Some(hook) = hook {
            hook(call, no)?;
        }
        let at = self.calls.fetch_add(1, Ordering::SeqCst) + 1;
        match at == self.failing.load(Ordering::SeqCst) {
            true => Err(io::Error::from_raw_os_error(28)), // ENOSPC
            false => Ok(()),
        }
    }
}

impl PageDevice for Memory {
    fn read(&self, no: u64, into: &mut [u8]) -> io::Result<()> {
        self.asked("read", no)?;
        match self.pages.lock().unwrap().get(&no) {
            Some(bytes) => into.copy_from_slice(bytes),
            None => into.fill(0),
        }
        Ok(())
    }

    fn write(&self, no: u64, bytes: &[u8]) -> io::Result<()> {
        self.asked("write", no)?;
        self.pages.lock().unwrap().insert(no, bytes.to_vec());
        Ok(())
    }

    fn sync(&self) -> io::Result<()> {
        self.asked("sync", 0)
    }

    fn before_write(&self, no: u64, _bytes: &[u8]) -> io::Result<()> {
        let hook = self.what.lock().unwrap().clone();
        hook.map_or(Ok(()), |hook| hook("before_write", no))
    }
}
