//! Says where the proved libraries are linked from, when they are asked for.

use std::env;
use std::path::Path;

fn main() {
    println!("cargo:rerun-if-changed=build.rs");
    println!("cargo:rerun-if-env-changed=LEDGER_LIB_DIR");
    if env::var_os("CARGO_FEATURE_LIBRARY").is_none() {
        return;
    }
    let here = env::var("CARGO_MANIFEST_DIR").expect("cargo sets CARGO_MANIFEST_DIR");
    let asked = env::var("LEDGER_LIB_DIR").unwrap_or_else(|_| "../target/staticlib".to_string());
    let folder = Path::new(&here).join(asked);
    println!("cargo:rerun-if-changed={}", folder.join("libc_api.a").display());
    println!("cargo:rustc-link-search=native={}", folder.display());
    println!("cargo:rustc-link-lib=static=c_api");
    if env::var_os("CARGO_FEATURE_MODULE").is_some() {
        println!("cargo:rerun-if-changed={}", folder.join("libfitting_module.a").display());
        println!("cargo:rustc-link-lib=static=fitting_module");
    }
}
