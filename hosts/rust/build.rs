//! Links the static library that `rt lib` wrote in crates/border.
use std::env;
use std::path::{Path, PathBuf};

fn main() {
    let folder = match env::var_os("SAMTREKHU_LIB") {
        Some(named) => PathBuf::from(named),
        None => Path::new(env!("CARGO_MANIFEST_DIR")).join("../../crates/border/out"),
    };
    let archive = folder.join("libborder.a");
    println!("cargo:rerun-if-env-changed=SAMTREKHU_LIB");
    println!("cargo:rerun-if-changed={}", archive.display());
    if !archive.is_file() {
        eprintln!("samtrekhu: {} is not there.", archive.display());
        eprintln!("Run `rt lib` in the project's folder crates/border to make it, or let SAMTREKHU_LIB name the folder that has it.");
        std::process::exit(1);
    }
    println!("cargo:rustc-link-search=native={}", folder.display());
    println!("cargo:rustc-link-lib=static=border");
}
