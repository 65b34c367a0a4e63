//! Links the proved archives, libprobe.a and libsimmerknot.a.
//!
//! They are looked for in the folder that SIMMERKNOT_LIB names, else where `tests/build` has them made: in crates/probe/out and
//! crates/simmerknot/out of the repository.

use std::env;
use std::path::PathBuf;

fn main() {
    println!("cargo:rerun-if-env-changed=SIMMERKNOT_LIB");
    for library in ["probe", "simmerknot"] {
        let folder = match env::var_os("SIMMERKNOT_LIB") {
            Some(folder) => PathBuf::from(folder),
            None => PathBuf::from(env::var_os("CARGO_MANIFEST_DIR").expect("set by cargo")).join("../../crates").join(library).join("out"),
        };
        let archive = folder.join(format!("lib{library}.a"));
        assert!(archive.is_file(), "{} is missing; run `tests/build {library}` first", archive.display());
        println!("cargo:rerun-if-changed={}", archive.display());
        println!("cargo:rustc-link-search=native={}", folder.display());
        println!("cargo:rustc-link-lib=static={library}");
    }
}
