//! Links libwarm_c.a: that of WARM_LIB, a path of it, or else the one that pkg-config knows.
use std::path::{Path, PathBuf};
use std::process::Command;

fn main() {
    println!("cargo:rerun-if-env-changed=WARM_LIB");
    println!("cargo:rerun-if-env-changed=PKG_CONFIG_PATH");
    let folder = match std::env::var_os("WARM_LIB") {
        Some(library) => {
            println!("cargo:rerun-if-changed={}", Path::new(&library).display());
            Path::new(&library).parent().expect("WARM_LIB is a path of libwarm_c.a").to_path_buf()
        }
        None => installed(),
    };
    println!("cargo:rustc-link-search=native={}", folder.display());
    println!("cargo:rustc-link-lib=static=warm_c");
}

/// The folder of the installed library.
fn installed() -> PathBuf {
    let asked = Command::new("pkg-config").args(["--variable=libdir", "warm"]).output();
    let answer = asked.expect("pkg-config is needed if WARM_LIB is not set");
    assert!(
        answer.status.success(),
        "pkg-config does not know warm: set WARM_LIB or PKG_CONFIG_PATH"
    );
    PathBuf::from(String::from_utf8(answer.stdout).expect("a path").trim_end())
}
