//! Compiles floor.c, with the compiler that CC names, else with gcc for x86-64.
use std::env;
use std::path::PathBuf;
use std::process::{exit, Command};

fn run(command: &mut Command) {
    match command.status() {
        Ok(status) if status.success() => {}
        other => {
            eprintln!("bench: {command:?}: {other:?}");
            exit(1)
        }
    }
}

fn main() {
    println!("cargo:rerun-if-changed=floor.c");
    println!("cargo:rerun-if-env-changed=CC");
    let out = PathBuf::from(env::var_os("OUT_DIR").expect("cargo sets OUT_DIR"));
    let cc = env::var("CC").unwrap_or_else(|_| "x86_64-linux-gnu-gcc".into());
    let (object, archive) = (out.join("floor.o"), out.join("libfloor.a"));
    run(Command::new(cc)
        .args(["-O3", "-fPIC", "-Wall", "-c", "floor.c", "-o"])
        .arg(&object));
    run(Command::new("ar").arg("crs").arg(archive).arg(object));
    println!("cargo:rustc-link-search=native={}", out.display());
    println!("cargo:rustc-link-lib=static=floor");
}
