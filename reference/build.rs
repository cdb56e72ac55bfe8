//! Says where the engine's static library is, for the comparison and the benchmark alone.

use std::path::Path;

fn main() {
    println!("cargo:rerun-if-changed=build.rs");
    if std::env::var_os("CARGO_FEATURE_ENGINE").is_some() {
        let root = Path::new(env!("CARGO_MANIFEST_DIR")).parent().expect("the folder stands in the repository");
        let folder = root.join("target").join("lib");
        println!("cargo:rerun-if-changed={}", folder.join("libvulprow.a").display());
        println!("cargo:rustc-link-search=native={}", folder.display());
    }
}
