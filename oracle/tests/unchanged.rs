//! The copies that are built are those of `docs/src`, byte for byte, and nothing but named stubs
//! stands beside them.

use std::collections::BTreeSet;
use std::fs;
use std::path::{Path, PathBuf};

const STUBS: [&str; 4] = [
    "oce-model/src/determinism.rs",
    "oce-model/src/types.rs",
    "oce-validate/src/lib.rs",
    "oce-validate/src/rules/params_finite.rs",
];

/// The files of the published text, as docs/src/INDEX.md lists them.
const PUBLISHED: usize = 9;

fn files_below(top: &Path) -> BTreeSet<PathBuf> {
    let mut files = BTreeSet::new();
    let mut folders = vec![top.to_path_buf()];
    while let Some(folder) = folders.pop() {
        for entry in fs::read_dir(&folder).expect("a folder") {
            let path = entry.expect("an entry").path();
            if path.is_dir() {
                folders.push(path);
            } else {
                files.insert(path.strip_prefix(top).expect("below").to_path_buf());
            }
        }
    }
    files
}

#[test]
fn every_published_file_is_built_unchanged() {
    let oracle = Path::new(env!("CARGO_MANIFEST_DIR"));
    let published = oracle.join("../docs/src/crates");
    let built = oracle.join("target/unchanged");
    let names = files_below(&published);
    assert_eq!(names.len(), PUBLISHED);
    for name in &names {
        let want = fs::read(published.join(name)).expect("a published file");
        let have = fs::read(built.join(name)).expect("its copy");
        assert!(want == have, "{} differs", name.display());
    }
    let stubs: BTreeSet<PathBuf> = STUBS.iter().map(PathBuf::from).collect();
    let beside: BTreeSet<PathBuf> = files_below(&built).difference(&names).cloned().collect();
    assert_eq!(beside, stubs);
}
