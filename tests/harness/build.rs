//! Says where the libraries lie: PATTERNS_LIB_DIR, or the repository's own place for them.

use std::path::PathBuf;

fn main() {
    println!("cargo:rerun-if-env-changed=PATTERNS_LIB_DIR");
    let here = PathBuf::from(std::env::var("CARGO_MANIFEST_DIR").unwrap());
    for library in ["exports", "search_export"] {
        let place = match std::env::var("PATTERNS_LIB_DIR") {
            Ok(named) => PathBuf::from(named),
            Err(_) => here.join("../../crates").join(library).join("out"),
        };
        println!("cargo:rustc-link-search=native={}", place.display());
        println!("cargo:rerun-if-changed={}", place.join(format!("lib{library}.a")).display());
        println!("cargo:rustc-link-lib=static={library}");
    }
}
