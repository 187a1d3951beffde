//! Links the proved libraries: from PATTERNS_LIB_DIR, else from where `rt lib` leaves each.

use std::env;
use std::path::Path;

fn main() {
    println!("cargo:rerun-if-env-changed=PATTERNS_LIB_DIR");
    let here = env::var("CARGO_MANIFEST_DIR").expect("cargo names the package's directory");
    for library in ["exports", "search_export"] {
        let dir = env::var("PATTERNS_LIB_DIR")
            .unwrap_or_else(|_| Path::new(&here).join("../../crates").join(library).join("out").display().to_string());
        println!("cargo:rustc-link-search=native={dir}");
        println!("cargo:rerun-if-changed={dir}/lib{library}.a");
        println!("cargo:rustc-link-lib=static={library}");
    }
}
