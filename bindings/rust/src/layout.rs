//! Compares this crate's view of warm.h with the header: a C compiler is given assertions of each
//! number, size and offset here, and a switch over all statuses.
use std::fmt::Write;
use std::mem::{size_of, MaybeUninit};
use std::path::Path;
use std::process::Command;
use std::ptr::addr_of;

use crate::{ffi, Error};

/// Assertions of the size of a structure, and of the offset and the size of each field.
macro_rules! layout {
    ($text:ident, $of:ty, $name:literal, $($field:ident)*) => {
        let it = MaybeUninit::<$of>::uninit();
        let begin = it.as_ptr();
        assert_that(&mut $text, format!("sizeof({})", $name), size_of::<$of>());
        $(
            // SAFETY: nothing is read.
            let (at, size) = unsafe {
                (addr_of!((*begin).$field) as usize, size_of_pointed(addr_of!((*begin).$field)))
            };
            let field = stringify!($field);
            assert_that(&mut $text, format!("offsetof({}, {field})", $name), at - begin as usize);
            assert_that(&mut $text, format!("sizeof((({} *)0)->{field})", $name), size);
        )*
    };
}

fn size_of_pointed<T>(_: *const T) -> usize {
    size_of::<T>()
}

fn assert_that(text: &mut String, what: String, is: usize) {
    writeln!(text, "_Static_assert({what} == {is}, \"{what}\");").unwrap();
}

/// WARM_BAD_FRAMES for BadFrames.
fn in_c(name: &str) -> String {
    let mut text = String::from("WARM");
    for letter in name.chars() {
        if letter.is_uppercase() {
            text.push('_');
        }
        text.push(letter.to_ascii_uppercase());
    }
    text
}

/// Assertions of all structures and constants.
fn layouts() -> String {
    let mut text = String::new();
    layout!(text, crate::Page, "warm_page", dev no);
    layout!(text, crate::Reference, "warm_reference", replica dev no time);
    layout!(text, ffi::Warm, "warm", at);
    layout!(text, ffi::Slot, "warm_slot", generation index shard hit);
    layout!(text, ffi::DeviceOps, "warm_device_ops", size read write sync before_write after_write);
    layout!(text, ffi::Device, "warm_device", pages fd ops context);
    layout!(text, ffi::Options, "warm_options",
        size replica flags shards frames page_size devices device_count);
    layout!(text, ffi::Sending, "warm_sending", since after bucket has_after more);
    layout!(text, ffi::Counters, "warm_counters",
        hits misses evictions written_back resident dirty reserved);
    layout!(text, ffi::DeviceCounters, "warm_device_counters",
        reads writes flushes failures reserved);
    layout!(text, ffi::Failure, "warm_failure", dev what error no count reserved);
    assert_that(&mut text, "WARM_MESSAGE_ROOM".into(), ffi::MESSAGE_ROOM);
    assert_that(&mut text, "WARM_FAILED_READ".into(), ffi::FAILED_READ.into());
    assert_that(&mut text, "WARM_FAILED_WRITE".into(), ffi::FAILED_WRITE.into());
    assert_that(&mut text, "WARM_FAILED_FLUSH".into(), 3);
    text
}

/// A switch over all statuses that this crate knows, and assertions of their numbers.
fn statuses() -> String {
    let mut text = String::from("int known(warm_status status);\n");
    text += "int known(warm_status status) {\n    switch (status) {\n    case WARM_OK:\n";
    let known = (1..=1000).map(Error::of).filter(|error| !matches!(error, Error::Unknown(_)));
    let known: Vec<Error> = known.collect();
    let names: Vec<String> = known.iter().map(|error| format!("{error:?}")).collect();
    assert_eq!(names, Error::NAMES, "the list of statuses is not in order");
    for (error, name) in known.iter().zip(names.iter().map(|name| in_c(name))) {
        let number = error.status().unwrap();
        writeln!(text, "    case {name}: return {number};").unwrap();
        writeln!(text, "    _Static_assert({name} == {number}, \"{name}\");").unwrap();
    }
    text + "    }\n    return -1;\n}\n"
}

#[test]
fn the_header_has_the_same_numbers_and_layouts() {
    let file = std::env::temp_dir().join(format!("warm-layout-{}.c", std::process::id()));
    let program = "#include <stddef.h>\n#include <warm.h>\n".to_string() + &layouts() + &statuses();
    std::fs::write(&file, program).unwrap();
    let include = Path::new(env!("CARGO_MANIFEST_DIR")).join("../../include");
    let compiled = Command::new("cc")
        .args(["-std=c11", "-Wall", "-Wextra", "-Werror", "-fsyntax-only", "-I"])
        .args([&include, &file])
        .output()
        .unwrap();
    std::fs::remove_file(&file).unwrap();
    assert!(compiled.status.success(), "{}", String::from_utf8_lossy(&compiled.stderr));
}
