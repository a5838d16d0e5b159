//! Links `libstrlib_c.a` from ../target/staticlib, or from the folder that the environment variable STRLIB_LIB names.

use std::path::PathBuf;
use std::{env, process};

fn main() {
    println!("cargo:rerun-if-env-changed=STRLIB_LIB");
    let folder = match env::var_os("STRLIB_LIB") {
        Some(folder) => PathBuf::from(folder),
        None => PathBuf::from(env!("CARGO_MANIFEST_DIR")).join("../target/staticlib"),
    };
    let library = folder.join("libstrlib_c.a");
    println!("cargo:rerun-if-changed={}", library.display());
    if !library.is_file() {
        eprintln!(
            "error: no {}: run `tools/build` at the top of the repository first, or name the library's folder in STRLIB_LIB",
            library.display()
        );
        process::exit(1);
    }
    println!("cargo:rustc-link-search=native={}", folder.display());
    println!("cargo:rustc-link-lib=static=strlib_c");
}
