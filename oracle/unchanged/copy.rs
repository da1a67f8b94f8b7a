//! The build step of the unchanged Rust: copy one crate of `docs/src` byte for byte into
//! `target/unchanged/`, and our stubs for what the published text lacks beside it.

use std::fs;
use std::path::{Path, PathBuf};
use std::process::exit;

/// Copy `docs/src/crates/NAME/src`, then each stub as (file in `stubs/`, place below `src/`).
pub fn copy_crate(name: &str, stubs: &[(&str, &str)]) {
    let package = PathBuf::from(std::env::var("CARGO_MANIFEST_DIR").unwrap_or_default());
    let published = package
        .join("../../../docs/src/crates")
        .join(name)
        .join("src");
    let target = package
        .join("../../target/unchanged")
        .join(name)
        .join("src");
    copy_tree(&published, &target);
    for (stub, place) in stubs {
        copy_file(&package.join("stubs").join(stub), &target.join(place));
    }
}

fn copy_tree(from: &Path, to: &Path) {
    println!("cargo::rerun-if-changed={}", from.display());
    let entries = fs::read_dir(from).unwrap_or_else(|e| stop("read", from, &e));
    for entry in entries {
        let path = entry.unwrap_or_else(|e| stop("read", from, &e)).path();
        let place = to.join(path.file_name().unwrap_or_default());
        if path.is_dir() {
            copy_tree(&path, &place);
        } else {
            copy_file(&path, &place);
        }
    }
}

/// A copy that was changed or removed is made anew, so cargo watches it too. It keeps the time of
/// its original: a copy just written isn't taken for a change.
fn copy_file(from: &Path, to: &Path) {
    println!("cargo::rerun-if-changed={}", from.display());
    println!("cargo::rerun-if-changed={}", to.display());
    let bytes = fs::read(from).unwrap_or_else(|e| stop("read", from, &e));
    if fs::read(to).is_ok_and(|old| old == bytes) {
        return;
    }
    let folder = to.parent().unwrap_or(to);
    fs::create_dir_all(folder).unwrap_or_else(|e| stop("make", folder, &e));
    fs::write(to, bytes).unwrap_or_else(|e| stop("write", to, &e));
    let time = fs::metadata(from).and_then(|data| data.modified());
    let keep = |time| fs::File::options().write(true).open(to)?.set_modified(time);
    time.and_then(keep)
        .unwrap_or_else(|e| stop("set the time of", to, &e));
}

fn stop(what: &str, path: &Path, error: &std::io::Error) -> ! {
    eprintln!("cannot {what} {}: {error}", path.display());
    exit(1)
}
