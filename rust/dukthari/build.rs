//! Links the archive for this machine, which must be there: in the folder that DUKTHARI_LIB_DIR names, else where `make` puts it.
use std::path::{Path, PathBuf};
use std::{env, fs, process};

fn main() {
    let here = env::var("CARGO_MANIFEST_DIR").expect("cargo tells where the crate stands");
    let x86 = env::var("CARGO_CFG_TARGET_ARCH").as_deref() == Ok("x86_64");
    let made = Path::new(&here).join("../..").join(if x86 { "target/staticlib" } else { "target/native" });
    let dir = env::var_os("DUKTHARI_LIB_DIR").map_or(made, PathBuf::from);
    let archive = dir.join("libdukthari.a");
    println!("cargo:rerun-if-env-changed=DUKTHARI_LIB_DIR");
    println!("cargo:rerun-if-changed={}", archive.display());
    if fs::metadata(&archive).map_or(true, |file| file.len() == 0) {
        eprintln!("no {}: run make at the top of the tree first, or name the archive's folder in DUKTHARI_LIB_DIR", archive.display());
        process::exit(1);
    }
    println!("cargo:rustc-link-search=native={}", dir.display());
    println!("cargo:rustc-link-lib=static=dukthari");
}
