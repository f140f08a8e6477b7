//! Links the proved archive, from `target/staticlib` of the repository or from the folder that
//! `ROSELHANDA_LIB_DIR` names. Only what is linked needs it: `cargo check` and `cargo doc` do not.

use std::env;
use std::path::{Path, PathBuf};

fn main() {
    let folder = match env::var_os("ROSELHANDA_LIB_DIR") {
        Some(folder) => PathBuf::from(folder),
        None => {
            let package = env::var_os("CARGO_MANIFEST_DIR").expect("cargo sets it");
            Path::new(&package).join("../../target/staticlib")
        }
    };
    let archive = folder.join("libcapi.a");
    println!("cargo:rerun-if-env-changed=ROSELHANDA_LIB_DIR");
    println!("cargo:rerun-if-changed={}", archive.display());
    if !archive.is_file() {
        println!(
            "cargo:warning={} is missing, so nothing can be linked: build it (make lib), or name \
             its folder in ROSELHANDA_LIB_DIR",
            archive.display()
        );
    }
    println!("cargo:rustc-link-search=native={}", folder.display());
    // Not bundled into the Rust library: the archive is looked for when a program is linked.
    println!("cargo:rustc-link-lib=static:-bundle=capi");
}
