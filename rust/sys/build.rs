//! Finds libihex.a: in the folder that IHEX_LIB_DIR names, else where `tools/archive` puts it.
use std::env;
use std::path::{Path, PathBuf};
use std::process::exit;

fn main() {
    println!("cargo:rerun-if-env-changed=IHEX_LIB_DIR");
    let folder = match env::var_os("IHEX_LIB_DIR") {
        Some(named) => PathBuf::from(named),
        None => Path::new(env!("CARGO_MANIFEST_DIR")).join("../../target/staticlib"),
    };
    let archive = folder.join("libihex.a");
    println!("cargo:rerun-if-changed={}", archive.display());
    if env::var("CARGO_CFG_TARGET_ARCH").as_deref() != Ok("x86_64") {
        eprintln!("ihex: libihex.a is for x86-64; build with --target x86_64-unknown-linux-gnu");
        exit(1);
    }
    if !archive.is_file() {
        eprintln!("ihex: there is no {}", archive.display());
        eprintln!("ihex: make it with 'tools/archive', or name its folder in IHEX_LIB_DIR");
        exit(1);
    }
    println!("cargo:rustc-link-search=native={}", folder.display());
    println!("cargo:rustc-link-lib=static=ihex");
}
