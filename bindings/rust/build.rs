//! Links the static library, from `target/staticlib` of this repository or from the folder that
//! `OCE_LIB_DIR` names.

use std::path::PathBuf;

fn main() {
    println!("cargo::rerun-if-env-changed=OCE_LIB_DIR");
    let folder = match std::env::var_os("OCE_LIB_DIR").filter(|folder| !folder.is_empty()) {
        Some(folder) => PathBuf::from(folder),
        None => PathBuf::from(std::env::var_os("CARGO_MANIFEST_DIR").unwrap_or_default())
            .join("../../target/staticlib"),
    };
    let library = folder.join("liboce_capi.a");
    println!("cargo::rerun-if-changed={}", library.display());
    if !library.is_file() {
        println!(
            "cargo::error=no {}: build it first, by `tools/library` at the top of the repository",
            library.display()
        );
        return;
    }
    println!("cargo::rustc-link-search=native={}", folder.display());
    println!("cargo::rustc-link-lib=static=oce_capi");
}
