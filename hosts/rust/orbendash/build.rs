//! Finds the static library and tells cargo to link it: in `ORBENDASH_LIB_DIR`, or else where
//! `make` (or `tools/static-library`) puts it in the repository.

use std::env;
use std::path::PathBuf;
use std::process::exit;

fn main() {
    println!("cargo:rerun-if-env-changed=ORBENDASH_LIB_DIR");
    let dir = match env::var_os("ORBENDASH_LIB_DIR") {
        Some(dir) => PathBuf::from(dir),
        None => PathBuf::from(env::var_os("CARGO_MANIFEST_DIR").expect("cargo sets this"))
            .join("../../../target/staticlib"),
    };
    let library = dir.join("liborbendash.a");
    println!("cargo:rerun-if-changed={}", library.display());
    if !library.is_file() {
        eprintln!("The static library is missing: {}", library.display());
        eprintln!("Run `make` or `tools/static-library` at the repository's root,");
        eprintln!("or set ORBENDASH_LIB_DIR to the directory that holds liborbendash.a.");
        exit(1);
    }
    println!("cargo:rustc-link-search=native={}", dir.display());
    println!("cargo:rustc-link-lib=static=orbendash");
}
