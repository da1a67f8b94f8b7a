//! The stored answers are what the oracle says now.

use std::fs;
use std::path::{Path, PathBuf};

use oracle::answer::answer;
use oracle::coverage::Coverage;
use oracle::models::models;
use oracle::stored::{File, MAX_FILE, MAX_RECORD, files, images, record, wrong};

const MOST_BYTES: usize = 2_000_000;
const LEAST_GENERATED: usize = 500;

/// The program that replays the stored answers.
fn replay() -> PathBuf {
    Path::new(env!("CARGO_MANIFEST_DIR")).join("../crates/replay")
}

/// The real ones, and the one that is wrong on purpose.
fn all_files() -> Vec<File> {
    let mut all = files();
    all.push(wrong());
    all
}

#[test]
fn stored_answers_are_up_to_date() {
    let folder = replay().join("data");
    let files = all_files();
    for file in &files {
        let stored = fs::read(folder.join(&file.name)).expect("a stored file");
        assert!(stored == file.bytes, "{} differs", file.name);
    }
    let there = fs::read_dir(&folder).expect("the folder").count();
    assert_eq!(there, files.len(), "a file too many in the folder");
}

/// Every file is replayed.
#[test]
fn every_file_is_an_argument() {
    let args = fs::read_to_string(replay().join("args")).expect("the arguments");
    let mut names: Vec<String> = all_files().into_iter().map(|file| file.name).collect();
    names.sort();
    assert_eq!(args.lines().collect::<Vec<_>>(), names);
}

#[test]
fn sizes_and_coverage() {
    let mut coverage = Coverage::default();
    let mut generated = 0;
    let mut bytes = 0;
    for file in files() {
        let images = images(&file.bytes).expect("a file of stored answers");
        if file.name.starts_with("generated") {
            generated += images.len();
        }
        bytes += file.bytes.len();
        assert!(
            file.bytes.len() <= MAX_FILE || images.len() == 1,
            "{}",
            file.name
        );
        assert!(file.bytes.len() <= MAX_RECORD + 16, "{}", file.name);
        for image in images {
            coverage.add(&answer(image));
        }
    }
    assert!(bytes <= MOST_BYTES);
    assert!(generated >= LEAST_GENERATED);
    assert_eq!(coverage.missing(), Vec::<String>::new());
}

/// Each wrong record has the length of the oracle's own, and one byte of its answer is another.
#[test]
fn wrong_answers_have_one_wrong_byte() {
    let file = wrong();
    let images = images(&file.bytes).expect("a file of stored answers");
    assert_eq!(images.len(), 4);
    let mut at = 12;
    for image in images {
        let right = record(image);
        let stored = &file.bytes[at..at + right.len()];
        let unlike = |i: &usize| stored[*i] != right[*i];
        let wrong: Vec<usize> = (0..right.len()).filter(unlike).collect();
        assert_eq!(wrong.len(), 1);
        assert!(wrong[0] >= 8 + image.len());
        at += right.len();
    }
    assert_eq!(at, file.bytes.len());
}

/// Model b by hand, byte for byte as docs/STORED_ANSWERS.md describes a record.
#[test]
fn a_record_by_hand() {
    let models = models();
    let image = &models[2].image;
    let mut want = Vec::new();
    let number = |want: &mut Vec<u8>, n: usize| want.extend((n as u32).to_le_bytes());
    number(&mut want, 4 + image.len() + 20 + 40);
    number(&mut want, image.len());
    want.extend(image);
    want.extend([0, 1, 0, 0]);
    for n in [0, 0, 0, 1] {
        number(&mut want, n);
    }
    want.extend([4, 0, 0, 0, 1, 0, 0, 0]);
    let mut attrs = [0; 32];
    attrs[1] = 2;
    want.extend(attrs);
    assert_eq!(record(image), want);
}
