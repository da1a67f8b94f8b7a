//! Writes the stored answers, or compares them with what the oracle says now.
//! Usage: stored write FOLDER, stored check FOLDER, stored coverage FOLDER

use std::fs;
use std::path::Path;
use std::process::ExitCode;

use oracle::answer::answer;
use oracle::coverage::Coverage;
use oracle::stored::{File, SEED, files, images, wrong};
use oracle::tool;

fn main() -> ExitCode {
    tool::run("stored", |arguments| {
        let [what, folder] = arguments else {
            return Err("usage: stored write|check|coverage FOLDER".to_owned());
        };
        let folder = Path::new(folder);
        let say = match what.as_str() {
            "write" => write(folder)?,
            "check" => check(folder)?,
            "coverage" => coverage(folder)?,
            other => return Err(format!("{other:?} is none of write, check, coverage")),
        };
        Ok(say.into_bytes())
    })
}

fn write(folder: &Path) -> Result<String, String> {
    let files = files();
    fs::create_dir_all(folder).map_err(|e| format!("cannot make {}: {e}", folder.display()))?;
    for file in files.iter().chain([&wrong()]) {
        let path = folder.join(&file.name);
        fs::write(&path, &file.bytes)
            .map_err(|e| format!("cannot write {}: {e}", path.display()))?;
    }
    Ok(format!("seed {SEED}: {}", sums(&files)?))
}

fn check(folder: &Path) -> Result<String, String> {
    let files = files();
    for file in files.iter().chain([&wrong()]) {
        if read(folder, &file.name)? != file.bytes {
            return Err(format!("{} isn't what the oracle says now", file.name));
        }
    }
    Ok(format!("as the oracle says now: {}", sums(&files)?))
}

fn sums(files: &[File]) -> Result<String, String> {
    let mut count = 0;
    for file in files {
        count += images(&file.bytes)?.len();
    }
    let bytes: usize = files.iter().map(|file| file.bytes.len()).sum();
    Ok(format!(
        "{count} images in {} files, {bytes} bytes\n",
        files.len()
    ))
}

fn coverage(folder: &Path) -> Result<String, String> {
    let mut coverage = Coverage::default();
    for file in files() {
        for image in images(&read(folder, &file.name)?)? {
            coverage.add(&answer(image));
        }
    }
    Ok(coverage.table())
}

fn read(folder: &Path, name: &str) -> Result<Vec<u8>, String> {
    let path = folder.join(name);
    fs::read(&path).map_err(|e| format!("cannot read {}: {e}", path.display()))
}
