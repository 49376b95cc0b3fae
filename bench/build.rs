//! Says where the archives of the model that are only timed lie: in the folder TIMING_DIR, or where
//! rt writes them. The crate `thymewax` says it of the one for hosts.

use std::{env, path::Path};

fn main() {
    let here = env::var("CARGO_MANIFEST_DIR").expect("cargo names the manifest's folder");
    let written = Path::new(&here).join("../target/staticlib");
    // Empty is as good as unset: it names no folder.
    let folder = env::var_os("TIMING_DIR")
        .filter(|named| !named.is_empty())
        .map_or(written, Into::into);
    println!("cargo:rustc-link-search=native={}", folder.display());
    println!("cargo:rerun-if-env-changed=TIMING_DIR");
    for name in ["libtiming_list.a", "libtiming_each.a"] {
        println!("cargo:rerun-if-changed={}", folder.join(name).display());
    }
}
