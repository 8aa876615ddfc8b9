//! Says where the proved library lies: `rust/library`, or the folder that `NAIPSELU_LIBRARY` names.

use std::env;
use std::path::PathBuf;

fn main() {
    let beside = PathBuf::from(env::var("CARGO_MANIFEST_DIR").expect("cargo sets it")).join("../library");
    let folder = env::var("NAIPSELU_LIBRARY").map_or(beside, PathBuf::from);
    // Each crate that is linked has a folder of its own, from which a shorter path would be read.
    assert!(folder.is_absolute(), "NAIPSELU_LIBRARY is no full path: {}", folder.display());
    for name in ["libversions_c.a", "liblibc_c.a"] {
        let file = folder.join(name);
        assert!(file.exists(), "{} is missing: `rust/build-library` makes it", file.display());
        println!("cargo::rerun-if-changed={}", file.display());
    }
    println!("cargo::rerun-if-env-changed=NAIPSELU_LIBRARY");
    println!("cargo::rustc-link-search=native={}", folder.display());
}
