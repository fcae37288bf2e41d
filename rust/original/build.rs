//! Finds the source of the crate ihex 3.0.0 in the folder that IHEX_CRATE names, else in
//! shared/docs/src beside the repository. Its files are included where they lie. Where there are
//! none, the Rust face stands in for them, so that what is built upon this still builds.
use std::env;
use std::fs;
use std::path::{Path, PathBuf};

const MODULES: [&str; 4] = ["checksum", "reader", "record", "writer"];

fn main() {
    println!("cargo:rerun-if-env-changed=IHEX_CRATE");
    println!("cargo:rerun-if-changed=build.rs");
    let folder = match env::var_os("IHEX_CRATE") {
        Some(named) => PathBuf::from(named),
        None => Path::new(env!("CARGO_MANIFEST_DIR")).join("../../../shared/docs/src"),
    };
    let source = folder.canonicalize().unwrap_or(folder).join("src");
    let file = |module: &str| source.join(module).with_extension("rs");
    let at_hand = MODULES.iter().all(|module| file(module).is_file());
    let mut text = format!(
        "/// Whether the crate's own source is here.\npub const AT_HAND: bool = {at_hand};\n"
    );
    if at_hand {
        for module in MODULES {
            println!("cargo:rerun-if-changed={}", file(module).display());
            text += &format!(
                "#[path = {:?}]\nmod {module};\npub use {module}::*;\n",
                file(module)
            );
        }
    } else {
        text += "pub use ihex::*;\n";
    }
    let out = PathBuf::from(env::var_os("OUT_DIR").expect("cargo sets OUT_DIR"));
    fs::write(out.join("original.rs"), text).expect("OUT_DIR can be written");
}
