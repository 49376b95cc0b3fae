//! Says where the archive of the model lies: in the folder THYMEWAX_LIB_DIR, or where rt writes it.

use std::{env, path::Path};

fn main() {
    let here = env::var("CARGO_MANIFEST_DIR").expect("cargo names the manifest's folder");
    let written = Path::new(&here).join("../../target/staticlib");
    // Empty is as good as unset: it names no folder.
    let folder = env::var_os("THYMEWAX_LIB_DIR")
        .filter(|named| !named.is_empty())
        .map_or(written, Into::into);
    let archive = folder.join("libthymewax.a");
    println!("cargo:rustc-link-search=native={}", folder.display());
    println!("cargo:rustc-link-lib=static=thymewax");
    println!("cargo:rerun-if-env-changed=THYMEWAX_LIB_DIR");
    println!("cargo:rerun-if-changed={}", archive.display());
    // A check or a build of the documents needs no archive, so this is no error here.
    if !archive.exists() {
        println!(
            "cargo:warning={} is not there: make it with `tools/archive`, or name its folder \
             by THYMEWAX_LIB_DIR, as a full path",
            archive.display()
        );
    }
}
