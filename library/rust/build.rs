//! Finds `libwolzenn.a`, which `library/build` of the repository makes, or which is in the folder `lib` of a release.
//! WOLZENN_LIB names another folder that has it.

use std::env;
use std::path::PathBuf;

fn main() {
    println!("cargo:rerun-if-env-changed=WOLZENN_LIB");
    let folder = match env::var_os("WOLZENN_LIB") {
        Some(folder) => PathBuf::from(folder),
        None => {
            let here = PathBuf::from(env::var_os("CARGO_MANIFEST_DIR").expect("cargo sets it"));
            let released = here.join("../lib");
            if released.join("libwolzenn.a").is_file() {
                released
            } else {
                here.join("../out")
            }
        }
    };
    let archive = folder.join("libwolzenn.a");
    println!("cargo:rerun-if-changed={}", archive.display());
    if !archive.is_file() {
        panic!("there is no {}: run library/build of the repository, or set WOLZENN_LIB", archive.display());
    }
    println!("cargo:rustc-link-search=native={}", folder.display());
    println!("cargo:rustc-link-lib=static=wolzenn");
}
