//! include/warm.h, as far as the crate calls it. A test compares it with the header.
use std::os::raw::{c_char, c_int, c_void};
use std::ptr;

use crate::{Page, Reference};

/// `warm`, a handle.
#[repr(C)]
pub struct Warm {
    pub at: *mut c_void,
}

impl Warm {
    pub const CLOSED: Warm = Warm { at: ptr::null_mut() };
}

/// `warm_slot`.
#[repr(C)]
#[derive(Clone, Copy, Default)]
pub struct Slot {
    pub generation: u64,
    pub index: u32,
    pub shard: u16,
    pub hit: u16,
}

/// `warm_device_ops`.
#[repr(C)]
pub struct DeviceOps {
    pub size: usize,
    pub read: Option<unsafe extern "C" fn(*mut c_void, u64, *mut c_void, usize) -> c_int>,
    pub write: Option<unsafe extern "C" fn(*mut c_void, u64, *const c_void, usize) -> c_int>,
    pub sync: Option<unsafe extern "C" fn(*mut c_void) -> c_int>,
    pub before_write: Option<unsafe extern "C" fn(*mut c_void, u64, *const c_void, usize) -> c_int>,
    pub after_write: Option<unsafe extern "C" fn(*mut c_void, u64, c_int)>,
}

/// `warm_device`.
#[repr(C)]
pub struct Device {
    pub pages: u64,
    pub fd: c_int,
    pub ops: *const DeviceOps,
    pub context: *mut c_void,
}

/// `warm_options`.
#[repr(C)]
pub struct Options {
    pub size: usize,
    pub replica: u32,
    pub flags: u32,
    pub shards: usize,
    pub frames: usize,
    pub page_size: usize,
    pub devices: *const Device,
    pub device_count: usize,
}

impl Options {
    pub const EMPTY: Options = Options {
        size: std::mem::size_of::<Options>(),
        replica: 0,
        flags: 0,
        shards: 0,
        frames: 0,
        page_size: 0,
        devices: ptr::null(),
        device_count: 0,
    };
}

/// `warm_sending`.
#[repr(C)]
#[derive(Clone, Copy)]
pub struct Sending {
    pub since: u64,
    pub after: Page,
    pub bucket: u8,
    pub has_after: bool,
    pub more: bool,
}

/// `warm_counters`.
#[repr(C)]
#[derive(Default)]
pub struct Counters {
    pub hits: u64,
    pub misses: u64,
    pub evictions: u64,
    pub written_back: u64,
    pub resident: u64,
    pub dirty: u64,
    pub reserved: [u64; 10],
}

/// `warm_device_counters`.
#[repr(C)]
#[derive(Default)]
pub struct DeviceCounters {
    pub reads: u64,
    pub writes: u64,
    pub flushes: u64,
    pub failures: u64,
    pub reserved: [u64; 4],
}

/// `warm_failure`.
#[repr(C)]
#[derive(Default)]
pub struct Failure {
    pub dev: u16,
    pub what: u16,
    pub error: i32,
    pub no: u64,
    pub count: u64,
    pub reserved: [u64; 1],
}

pub const MESSAGE_ROOM: usize = 31023;
pub const VICTIMS: usize = 64;
pub const FAILED_READ: u16 = 1;
pub const FAILED_WRITE: u16 = 2;

extern "C" {
    pub fn warm_open(handle: *mut Warm, options: *const Options) -> c_int;
    pub fn warm_attach(handle: *mut Warm, attached: *mut Warm) -> c_int;
    pub fn warm_close(handle: *mut Warm) -> c_int;
    pub fn warm_abandon(handle: *mut Warm) -> c_int;
    pub fn warm_settings(handle: *mut Warm, options: *mut Options) -> c_int;
    pub fn warm_version() -> *const c_char;
    pub fn warm_strerror(status: c_int) -> *const c_char;
    pub fn warm_pin(handle: *mut Warm, page: Page, slot: *mut Slot) -> c_int;
    pub fn warm_pin_bytes(
        handle: *mut Warm,
        page: Page,
        slot: *mut Slot,
        bytes: *mut *const u8,
    ) -> c_int;
    pub fn warm_pin_zeroed(handle: *mut Warm, page: Page, slot: *mut Slot) -> c_int;
    pub fn warm_unpin(handle: *mut Warm, slot: Slot) -> c_int;
    pub fn warm_read(
        handle: *mut Warm,
        slot: Slot,
        at: usize,
        into: *mut c_void,
        length: usize,
    ) -> c_int;
    pub fn warm_write(
        handle: *mut Warm,
        slot: Slot,
        at: usize,
        bytes: *const c_void,
        length: usize,
    ) -> c_int;
    pub fn warm_resident(handle: *mut Warm, page: Page, resident: *mut bool) -> c_int;
    pub fn warm_victims(
        handle: *mut Warm,
        shard: usize,
        pages: *mut Page,
        room: usize,
        count: *mut usize,
    ) -> c_int;
    pub fn warm_step(handle: *mut Warm, found: *mut bool, page: *mut Page) -> c_int;
    pub fn warm_prefetch(handle: *mut Warm, page: Page) -> c_int;
    pub fn warm_write_back_all(handle: *mut Warm) -> c_int;
    pub fn warm_write_back_some(handle: *mut Warm, limit: usize, left: *mut usize) -> c_int;
    pub fn warm_write_back_page(handle: *mut Warm, page: Page, written: *mut bool) -> c_int;
    pub fn warm_flush_device(handle: *mut Warm, dev: u16) -> c_int;
    pub fn warm_forget_pages(handle: *mut Warm, dev: u16, from: u64) -> c_int;
    pub fn warm_absorb(handle: *mut Warm, references: *const Reference, count: usize) -> c_int;
    pub fn warm_raise(handle: *mut Warm, time: u64, horizon: *mut u64) -> c_int;
    pub fn warm_list(handle: *mut Warm, pages: *mut Page, room: usize, count: *mut usize) -> c_int;
    pub fn warm_history_length(handle: *mut Warm, length: *mut usize) -> c_int;
    pub fn warm_offer(
        handle: *mut Warm,
        message: *mut c_void,
        room: usize,
        length: *mut usize,
    ) -> c_int;
    pub fn warm_receive(handle: *mut Warm, message: *const c_void, length: usize) -> c_int;
    pub fn warm_next_answer(
        handle: *mut Warm,
        message: *mut c_void,
        room: usize,
        length: *mut usize,
    ) -> c_int;
    pub fn warm_send(
        handle: *mut Warm,
        sending: *mut Sending,
        message: *mut c_void,
        room: usize,
        length: *mut usize,
    ) -> c_int;
    pub fn warm_limit(handle: *mut Warm, time: u64) -> c_int;
    pub fn warm_limit_waits(handle: *mut Warm, milliseconds: u64) -> c_int;
    pub fn warm_limit_history(handle: *mut Warm, horizon: u64, pages: usize) -> c_int;
    pub fn warm_save(handle: *mut Warm, fd: c_int) -> c_int;
    pub fn warm_load(handle: *mut Warm, fd: c_int, length: u64) -> c_int;
    pub fn warm_counts(handle: *mut Warm, counters: *mut Counters) -> c_int;
    pub fn warm_device_counts(handle: *mut Warm, dev: u16, counters: *mut DeviceCounters) -> c_int;
    pub fn warm_last_failure(handle: *mut Warm, found: *mut bool, failure: *mut Failure) -> c_int;
}
