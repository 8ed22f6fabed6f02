//! Says where the proved libraries are linked from.

use std::env;
use std::path::Path;

fn main() {
    println!("cargo:rerun-if-changed=build.rs");
    println!("cargo:rerun-if-env-changed=LEDGER_LIB_DIR");
    let here = env::var("CARGO_MANIFEST_DIR").expect("cargo sets CARGO_MANIFEST_DIR");
    let asked = env::var("LEDGER_LIB_DIR").unwrap_or_else(|_| "../../target/staticlib".to_string());
    let folder = Path::new(&here).join(asked);
    println!("cargo:rustc-link-search=native={}", folder.display());
    for name in ["fitting_ledger", "fitting_station"] {
        println!("cargo:rerun-if-changed={}", folder.join(format!("lib{name}.a")).display());
        println!("cargo:rustc-link-lib=static={name}");
    }
}
