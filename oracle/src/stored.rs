//! Stored answers: images with what the oracle says of them, in the format that
//! `docs/STORED_ANSWERS.md` describes.

use crate::answer::{Answer, Filled, Report, Told, answer};
use crate::bench;
use crate::generator::{Family, LIMIT_CASES, generate_with_family, limit_case};
use crate::models::models;
use crate::random::Random;

/// The first bytes of a file, then the format's version.
pub const MAGIC: [u8; 4] = *b"OCEA";
pub const FILE_VERSION: u32 = 1;

/// A file holds records up to this size; a longer record has a file of its own.
pub const MAX_FILE: usize = 60_000;
/// No record is longer than this; an answer that would be isn't stored.
pub const MAX_RECORD: usize = 131_072;

/// The seed of the stored images and how many of them there are.
pub const SEED: u64 = 231;
pub const GENERATED: usize = 700;
pub const OTHER_DEFAULTS: usize = 24;
/// So many of the benchmark's images are stored too.
pub const LARGE: u64 = 8;
/// A generated image's record is at most this long, so that many fit.
pub const MAX_GENERATED_RECORD: usize = 6_000;

/// Bits of a diagnostic's told byte.
pub const TOLD_NUMBER: u8 = 1;
pub const TOLD_PLACE: u8 = 2;

/// A file of stored answers.
pub struct File {
    pub name: String,
    pub bytes: Vec<u8>,
}

/// All files, as the oracle answers now.
pub fn files() -> Vec<File> {
    let mut files = Vec::new();
    let models = models().into_iter().map(|model| model.image);
    files.extend(pack("models", models.map(|image| record(&image))));
    files.extend(pack("generated", generated(true).take(GENERATED)));
    files.extend(pack("limits", limits()));
    files.extend(pack(
        "large",
        (0..LARGE).map(|index| record(&bench::image(index))),
    ));
    files.extend(pack("defaults", generated(false).take(OTHER_DEFAULTS)));
    files
}

/// The name of the file whose answers are wrong on purpose.
pub const WRONG: &str = "wrong-00.ans";

/// Records with one wrong byte each, in the answer: a refusal's number, the number of errors, a
/// diagnostic's severity, a filled attribute. Who replays them must say that each differs.
pub fn wrong() -> File {
    let models = models();
    let (filled, faulty) = (&models[2].image, &models[3].image);
    let records = [
        wrong_at(&[], 0),
        wrong_at(faulty, 8),
        wrong_at(faulty, ANSWER),
        wrong_at(filled, ANSWER + 8),
    ];
    File {
        name: WRONG.to_owned(),
        bytes: file_bytes(&records),
    }
}

/// The record of an image with a wrong byte, so many bytes behind the image.
fn wrong_at(image: &[u8], behind: usize) -> Vec<u8> {
    let mut record = record(image);
    record[8 + image.len() + behind] ^= 3;
    record
}

/// Bytes of an answer before its diagnostics.
const ANSWER: usize = 20;

/// Records of generated images: those that can be compared, or those whose head has other
/// Integer defaults that matter.
fn generated(comparable: bool) -> impl Iterator<Item = Vec<u8>> {
    (0..)
        .map(|index| generate_with_family(SEED, index))
        .filter(|(family, _)| *family != Family::Limits)
        .filter(move |(_, image)| is_comparable(image) == comparable)
        .map(|(_, image)| record(&image))
        .filter(|record| record.len() <= MAX_GENERATED_RECORD)
}

fn is_comparable(image: &[u8]) -> bool {
    match answer(image) {
        Answer::Refused(_) => true,
        Answer::Accepted(report) => report.comparable,
    }
}

/// Every case at and beyond a limit, as far as its record isn't too long.
fn limits() -> impl Iterator<Item = Vec<u8>> {
    (0..LIMIT_CASES)
        .map(|number| limit_case(&mut Random::new(SEED, number as u64), number))
        .map(|image| record(&image))
        .filter(|record| record.len() <= MAX_RECORD)
}

/// Put records into files, in order.
fn pack(name: &str, records: impl Iterator<Item = Vec<u8>>) -> Vec<File> {
    let mut contents: Vec<Vec<Vec<u8>>> = Vec::new();
    let mut size = MAX_FILE;
    for record in records {
        if size + record.len() > MAX_FILE {
            contents.push(Vec::new());
            size = FILE_START;
        }
        size += record.len();
        if let Some(last) = contents.last_mut() {
            last.push(record);
        }
    }
    let file = |(number, records): (usize, &Vec<Vec<u8>>)| File {
        name: format!("{name}-{number:02}.ans"),
        bytes: file_bytes(records),
    };
    contents.iter().enumerate().map(file).collect()
}

const FILE_START: usize = MAGIC.len() + 8;

fn file_bytes(records: &[Vec<u8>]) -> Vec<u8> {
    let mut bytes = MAGIC.to_vec();
    bytes.extend(FILE_VERSION.to_le_bytes());
    bytes.extend((records.len() as u32).to_le_bytes());
    bytes.extend(records.concat());
    bytes
}

/// One image and its answer, with the record's length before it.
pub fn record(image: &[u8]) -> Vec<u8> {
    let answer = answer(image);
    let mut body = Vec::new();
    put(&mut body, image.len());
    body.extend(image);
    match &answer {
        Answer::Refused(refusal) => {
            body.extend([refusal.number, 0, 0, 0]);
            put(&mut body, refusal.at as usize);
            for _ in 0..3 {
                put(&mut body, 0);
            }
        }
        Answer::Accepted(report) => put_report(&mut body, report),
    }
    let mut record = Vec::with_capacity(body.len() + 4);
    put(&mut record, body.len());
    record.extend(body);
    record
}

/// What can't be compared is left out: only that the image isn't refused is then told.
fn put_report(body: &mut Vec<u8>, report: &Report) {
    body.extend([0, u8::from(report.comparable), 0, 0]);
    put(body, 0);
    if !report.comparable {
        for _ in 0..3 {
            put(body, 0);
        }
        return;
    }
    put(body, report.errors());
    put(body, report.warnings());
    put(body, report.filled.len());
    for told in &report.diagnostics {
        put_diagnostic(body, told);
    }
    for slot in &report.filled {
        put_filled(body, slot);
    }
}

fn put_diagnostic(body: &mut Vec<u8>, told: &Told) {
    let text = told.subject.text.as_deref().unwrap_or("");
    let number = told.subject.number.map_or(0, |_| TOLD_NUMBER);
    let place = told.place.map_or(0, |_| TOLD_PLACE);
    body.extend([told.severity, told.code, told.rule, told.detail]);
    body.extend([told.subject.kind, number | place]);
    body.extend((text.len() as u16).to_le_bytes());
    body.extend(told.subject.number.unwrap_or(0).to_le_bytes());
    body.extend(told.place.unwrap_or(0).to_le_bytes());
    body.extend(text.as_bytes());
}

fn put_filled(body: &mut Vec<u8>, slot: &Filled) {
    body.extend([slot.tag, 0, 0, 0]);
    body.extend(slot.index.to_le_bytes());
    body.extend(slot.after.to_bytes());
}

fn put(body: &mut Vec<u8>, number: usize) {
    body.extend((number as u32).to_le_bytes());
}

/// The images of a file, in order; an error line if the file isn't one.
pub fn images(file: &[u8]) -> Result<Vec<&[u8]>, String> {
    let number = |at: usize| -> Result<usize, String> {
        let bytes = file.get(at..at + 4).ok_or(format!("cut at {at}"))?;
        Ok(u32::from_le_bytes([bytes[0], bytes[1], bytes[2], bytes[3]]) as usize)
    };
    if !file.starts_with(&MAGIC) || number(4)? != FILE_VERSION as usize {
        return Err("not a file of stored answers".to_owned());
    }
    let mut images = Vec::new();
    let mut at = FILE_START;
    for _ in 0..number(8)? {
        let (end, image_at) = (at + 4 + number(at)?, at + 8);
        let image_end = image_at + number(at + 4)?;
        if image_end > end {
            return Err(format!("the image at {image_at} is longer than its record"));
        }
        images.push(
            file.get(image_at..image_end)
                .ok_or(format!("cut at {image_at}"))?,
        );
        at = end;
    }
    if at != file.len() {
        return Err(format!("{} bytes instead of {at}", file.len()));
    }
    Ok(images)
}
