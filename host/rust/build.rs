//! Links the kernel's static library, which `bash host/library` builds. BROMBEERTOR_LIBRARY names its folder where it
//! lies elsewhere.

use std::env;
use std::path::PathBuf;

fn main() {
    println!("cargo:rerun-if-env-changed=BROMBEERTOR_LIBRARY");
    let usual = PathBuf::from(env::var("CARGO_MANIFEST_DIR").unwrap()).join("../../target/staticlib");
    let folder = env::var("BROMBEERTOR_LIBRARY").map_or(usual, PathBuf::from);
    println!("cargo:rerun-if-changed={}", folder.join("libkernel.a").display());
    println!("cargo:rustc-link-search=native={}", folder.display());
    println!("cargo:rustc-link-lib=static=kernel");
}
