//! Links libvo_facts.a from the folder that VO_FACTS_LIB names, else from build/ of the repository.

use std::env;
use std::path::PathBuf;

fn main() {
    println!("cargo:rerun-if-env-changed=VO_FACTS_LIB");
    let here = PathBuf::from(env::var_os("CARGO_MANIFEST_DIR").unwrap());
    let folder = env::var_os("VO_FACTS_LIB").map_or_else(|| here.join("../../build"), PathBuf::from);
    let archive = folder.join("libvo_facts.a");
    println!("cargo:rerun-if-changed={}", archive.display());
    assert!(archive.is_file(), "{} is not there: bin/build-lib makes it", archive.display());
    println!("cargo:rustc-link-search=native={}", folder.display());
    println!("cargo:rustc-link-lib=static=vo_facts");
}
