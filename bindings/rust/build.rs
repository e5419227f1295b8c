//! Finds libcekarum.a: the file that CEKARUM_ARCHIVE names, else the one for the target in the release that this crate is part of.
use std::env;
use std::path::{Path, PathBuf};

/// The first words of a Rust target's name, and the folder below lib/ that has its archive.
const FOLDERS: [(&str, &str); 11] = [
    ("x86_64-unknown-linux", "x86_64-linux"),
    ("aarch64-unknown-linux", "aarch64-linux"),
    ("riscv64gc-unknown-linux", "riscv64-linux"),
    ("thumbv6m-none-eabi", "cortex-m0plus"),
    ("thumbv7m-none-eabi", "cortex-m3"),
    ("thumbv7em-none-eabihf", "cortex-m4f"),
    ("thumbv7em-none-eabi", "cortex-m4"),
    ("thumbv8m.main-none-eabihf", "cortex-m33f"),
    ("thumbv8m.main-none-eabi", "cortex-m33"),
    ("riscv32imac-unknown-none", "riscv32imac"),
    ("wasm32-unknown-unknown", "wasm32"),
];

/// Ends the build with one line.
fn stop(why: String) -> ! {
    eprintln!("cekarum: {why}: name the archive by CEKARUM_ARCHIVE=/path/to/libcekarum.a");
    std::process::exit(1);
}

fn archive() -> PathBuf {
    if let Some(named) = env::var_os("CEKARUM_ARCHIVE") {
        return named.into();
    }
    let target = env::var("TARGET").expect("cargo sets TARGET");
    let Some((_, folder)) = FOLDERS.iter().find(|(name, _)| target.starts_with(name)) else {
        stop(format!("there is no archive for {target}"));
    };
    let home = env::var("CARGO_MANIFEST_DIR").expect("cargo sets CARGO_MANIFEST_DIR");
    Path::new(&home).join("../../lib").join(folder).join("libcekarum.a")
}

fn main() {
    println!("cargo:rerun-if-env-changed=CEKARUM_ARCHIVE");
    let archive = archive();
    let Ok(found) = archive.canonicalize() else {
        stop(format!("{} is not there", archive.display()));
    };
    if found.file_name() != Some("libcekarum.a".as_ref()) {
        stop(format!("{} is no libcekarum.a", found.display()));
    }
    println!("cargo:rerun-if-changed={}", found.display());
    println!("cargo:rustc-link-search=native={}", found.parent().unwrap_or(&found).display());
    println!("cargo:rustc-link-lib=static=cekarum");
}
