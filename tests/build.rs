//! Links the library's archive, `../crates/hwmp/out/libhwmp.a`, and `libprobe.a` of
//! `../crates/probe/out`, through which the tests reach functions that the library does not open to
//! C. To test another build, name the directory that holds both archives in HWMP_LIB_DIR.

use std::env;
use std::path::{Path, PathBuf};

fn main() {
    println!("cargo::rerun-if-env-changed=HWMP_LIB_DIR");
    for name in ["hwmp", "probe"] {
        link(&archive_directory(name), name);
    }
}

fn link(directory: &Path, name: &str) {
    println!("cargo::rustc-link-search=native={}", directory.display());
    let archive = directory.join(format!("lib{name}.a"));
    println!("cargo::rerun-if-changed={}", archive.display());
    if !archive.exists() {
        println!(
            "cargo::error={} is missing: `rt lib` in crates/{name} builds it",
            archive.display()
        );
    }
    // Not bundled, because link-time optimisation would take the archive's members for Rust objects
    // of this package. The tests must run the library as it was built.
    println!("cargo::rustc-link-lib=static:-bundle={name}");
}

fn archive_directory(name: &str) -> PathBuf {
    if let Some(directory) = env::var_os("HWMP_LIB_DIR") {
        return PathBuf::from(directory);
    }
    let package = env::var_os("CARGO_MANIFEST_DIR").expect("set by cargo");
    Path::new(&package).join(format!("../crates/{name}/out"))
}
