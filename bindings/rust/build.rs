//! Links `libsymq.a`, which `make lib` makes, from the directory that SYMQ_LIB_DIR names, or from lib/ of the repository.

use std::env;
use std::path::Path;

fn main() {
    let own = Path::new(env!("CARGO_MANIFEST_DIR")).join("../../lib");
    let folder = env::var("SYMQ_LIB_DIR").unwrap_or_else(|_| own.display().to_string());
    println!("cargo:rustc-link-search=native={folder}");
    println!("cargo:rustc-link-lib=static=symq");
    println!("cargo:rerun-if-env-changed=SYMQ_LIB_DIR");
    println!("cargo:rerun-if-changed={folder}/libsymq.a");
}
