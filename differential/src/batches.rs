//! Images in batches, given to the library. What is expected of an image is what the single call gave
//! for it, and once more what the oracle tells.

use oce::sys::{self, OceAnswer, OceBatchAnswer};
use oracle::answer::{Answer, Report, answer};
use oracle::format::*;
use oracle::image::{Draft, field};
use oracle::random::Random;

use crate::compare::{REFUSED_REPORT, report_as_told};
use crate::fields::Fields;
use crate::lent::{GUARD, Lent, MOST, Pattern};
use crate::sums::Sums;

const REFUSED_FIELD: u64 = 11;
const REFUSED_OUTPUT: u64 = 12;

/// The tag of an image's field, and how the field starts that sums up its check.
const IMAGE_TAG: u8 = 0x30;
const SUMMARY_START: [u8; 3] = [0x31, 13, 0];
const SUMMARY_SIZE: usize = 16;
/// A batch has no more images.
const MOST_IMAGES: usize = 4_096;

/// How many images a batch is to have; more or fewer where images of 0 bytes come in or room ends.
const SIZES: [usize; 8] = [0, 1, 1, 2, 3, 8, 40, 64];
/// Most bytes that are lent behind an output.
const SPARE: usize = 200;
/// A batch and its output have no more bytes, images of 0 bytes left aside.
const MOST_LENT: usize = MOST - 4_096;
/// Images of a batch with as many as there may be, and their reports, have no more bytes each.
const SMALL: usize = 95;

/// Names of the calls, for the table and for differences.
mod name {
    pub const EXACT: &str = "output of the exact length";
    pub const SPARE: &str = "output with room to spare";
    pub const SHORT: &str = "output one byte short";
    pub const SHORTER: &str = "output shorter";
    pub const NONE: &str = "output of 0 bytes";
    pub const CUT_START: &str = "a field cut in its leading bytes";
    pub const CUT_CONTENTS: &str = "a field cut in its contents";
    pub const OTHER_TAG: &str = "a field with another tag";
    pub const TWO: &str = "two fields at fault";
    pub const LENGTH: &str = "another length in a field";
    pub const FULL: &str = "4,096 fields";
    pub const BARE: &str = "4,096 fields, 65,536 bytes of output";
    pub const ONE_REPORT: &str = "4,096 fields or fewer, the first with a report";
    pub const FULL_SHORT: &str = "4,096 fields, output one byte short";
    pub const MORE: &str = "4,097 fields or more";
    pub const MORE_FAULT: &str = "4,096 fields, then one at fault";
    pub const FAULT_MORE: &str = "4,097 fields or more, one before at fault";
}

/// An image and what the single call gave for it, with the room that it needs.
pub struct Single {
    /// Its index; none for one that isn't generated.
    pub index: Option<u64>,
    pub image: Vec<u8>,
    pub answer: OceAnswer,
    pub report: Vec<u8>,
    /// What the oracle tells, where it can be compared.
    pub told: Option<Report>,
}

impl Single {
    /// An image that the oracle refuses, or that it reports nothing about.
    fn unreported(image: &[u8]) -> Self {
        let (refusal, at, told) = match answer(image) {
            Answer::Refused(refusal) => (refusal.number.into(), refusal.at, None),
            Answer::Accepted(report) => (0, 0, Some(report)),
        };
        let (errors, warnings) = (0, 0);
        Self {
            index: None,
            image: image.to_vec(),
            answer: OceAnswer {
                refusal,
                at,
                errors,
                warnings,
            },
            report: Vec::new(),
            told,
        }
    }

    /// Whether the image fits a field. One that doesn't is in no batch.
    fn fits(&self) -> bool {
        self.image.len() <= MAX_IMAGE
    }

    fn small(&self) -> bool {
        self.image.len() <= SMALL && self.report.len() <= SMALL
    }

    /// The bytes of its field in a batch.
    fn field_size(&self) -> usize {
        FIELD_START + self.image.len()
    }

    /// The bytes of its part of the output.
    fn part_size(&self) -> usize {
        SUMMARY_SIZE + self.report.len()
    }

    /// Its part of the output.
    fn part(&self) -> Vec<u8> {
        let mut part = SUMMARY_START.to_vec();
        part.push(self.answer.refusal as u8);
        for number in [self.answer.at, self.answer.errors, self.answer.warnings] {
            part.extend(number.to_le_bytes());
        }
        part.extend(&self.report);
        part
    }
}

/// An image of 0 bytes, and one that is a head alone.
fn plain() -> [Single; 2] {
    [&[][..], &Draft::default().bytes()].map(Single::unreported)
}

/// A batch without a fault, and the output that it must have.
struct Row<'a> {
    images: Vec<&'a Single>,
    bytes: Vec<u8>,
    /// Where each field stands.
    starts: Vec<usize>,
    output: Vec<u8>,
    /// Where each image's part of the output stands.
    parts: Vec<usize>,
}

impl<'a> Row<'a> {
    fn of(images: Vec<&'a Single>) -> Self {
        let mut row = Self {
            images: Vec::new(),
            bytes: Vec::new(),
            starts: Vec::new(),
            output: Vec::new(),
            parts: Vec::new(),
        };
        for image in images {
            row.starts.push(row.bytes.len());
            row.parts.push(row.output.len());
            row.bytes.extend(field(IMAGE_TAG, &image.image));
            row.output.extend(image.part());
            row.images.push(image);
        }
        row
    }

    /// The first bytes of the batch, up to somewhere in the leading bytes of a field.
    fn cut_in_start(&self, r: &mut Random, number: usize) -> Vec<u8> {
        let end = self.starts[number] + r.between(1, FIELD_START - 1);
        self.bytes[..end].to_vec()
    }

    /// The same, up to somewhere in its contents, which aren't empty.
    fn cut_in_contents(&self, r: &mut Random, number: usize) -> Vec<u8> {
        let end = self.starts[number] + FIELD_START + r.below(self.images[number].image.len());
        self.bytes[..end].to_vec()
    }

    /// The batch with another tag at a field.
    fn other_tag(&self, r: &mut Random, number: usize) -> Vec<u8> {
        let mut bytes = self.bytes.clone();
        bytes[self.starts[number]] = another_tag(r);
        bytes
    }
}

/// Any tag but an image's, those of an output and next to it more often.
fn another_tag(r: &mut Random) -> u8 {
    let near = [0, 1, 0x20, 0x2F, 0x31, 0xB0, 0xFF];
    let tag = if r.chance(1, 2) {
        r.pick(&near)
    } else {
        r.bits() as u8
    };
    if tag == IMAGE_TAG { 0 } else { tag }
}

/// Makes batches and compares them; holds the memory that is lent, and the sums.
pub struct Batches {
    seed: u64,
    pattern: Pattern,
    batch: Lent,
    output: Lent,
    pub sums: Sums,
}

impl Batches {
    pub fn new(seed: u64) -> Self {
        Self {
            seed,
            pattern: Pattern::new(seed),
            batch: Lent::default(),
            output: Lent::default(),
            sums: Sums::default(),
        }
    }

    /// Compare batches that hold each of these images once; what differs first, if anything does.
    pub fn of(&mut self, first: u64, singles: &[Single]) -> Result<(), String> {
        let mut r = Random::new(self.seed.rotate_left(32), first);
        let [empty, _] = plain();
        let mut left = singles.iter().filter(|s| s.fits()).peekable();
        self.sums.beyond_fields += singles.iter().filter(|s| !s.fits()).count();
        while left.peek().is_some() {
            let count = r.pick(&SIZES);
            let (mut batch, mut output) = (0, 0);
            let mut images = Vec::new();
            while images.len() < count {
                if r.chance(1, 16) {
                    images.push(&empty);
                }
                let Some(next) = left.peek() else { break };
                batch += next.field_size();
                output += next.part_size();
                if !images.is_empty() && batch.max(output) > MOST_LENT {
                    break;
                }
                images.extend(left.next());
            }
            self.row(&mut r, &Row::of(images))?;
        }
        Ok(())
    }

    /// A batch without a fault, with outputs of every kind; then with faults.
    fn row(&mut self, r: &mut Random, row: &Row) -> Result<(), String> {
        self.sums
            .batch(row.images.len(), row.bytes.len(), row.output.len());
        let needed = row.output.len();
        let spare = r.between(1, SPARE);
        self.written(r, row, name::SPARE, needed + spare)?;
        self.written(r, row, name::EXACT, needed)?;
        if row.images.is_empty() {
            return Ok(());
        }
        self.short(r, row, name::SHORT, needed - 1)?;
        let shorter = r.below(needed);
        self.short(r, row, name::SHORTER, shorter)?;
        self.short(r, row, name::NONE, 0)?;
        self.faults(r, row)
    }

    /// Each fault of a field, once.
    fn faults(&mut self, r: &mut Random, row: &Row) -> Result<(), String> {
        let number = r.below(row.images.len());
        let at = row.starts[number];
        let cut = row.cut_in_start(r, number);
        self.at_fault(r, row, name::CUT_START, &cut, at)?;
        let tagged = row.other_tag(r, number);
        self.at_fault(r, row, name::OTHER_TAG, &tagged, at)?;
        let holding: Vec<usize> = (0..row.images.len())
            .filter(|&number| !row.images[number].image.is_empty())
            .collect();
        if let Some(number) = r.any(&holding) {
            let cut = row.cut_in_contents(r, number);
            self.at_fault(r, row, name::CUT_CONTENTS, &cut, row.starts[number])?;
        }
        // the first of two counts, or both are of one field
        let later = number + r.below(row.images.len() - number);
        let mut two = match r.below(3) {
            0 => row.cut_in_start(r, later),
            1 if !row.images[later].image.is_empty() => row.cut_in_contents(r, later),
            _ => row.other_tag(r, later),
        };
        two[at] = another_tag(r);
        self.at_fault(r, row, name::TWO, &two, at)?;
        self.other_length(r, row, number)
    }

    /// Another length in a field, so that the fields behind it stand elsewhere. Where none is at fault
    /// then, the single call tells what the images give.
    fn other_length(&mut self, r: &mut Random, row: &Row, number: usize) -> Result<(), String> {
        let at = row.starts[number];
        let mut bytes = row.bytes.clone();
        let length = match r.below(3) {
            0 => (row.images[number].image.len() as u16).wrapping_add(1),
            1 => r.bits() as u16,
            _ => (bytes.len() - at - FIELD_START).min(MAX_IMAGE) as u16,
        };
        bytes[at + 1..at + FIELD_START].copy_from_slice(&length.to_le_bytes());
        match fields_of(&bytes) {
            Err(at) => self.at_fault(r, row, name::LENGTH, &bytes, at),
            Ok(images) => {
                let images: Vec<Single> = images.into_iter().map(called_alone).collect();
                let again = Row::of(images.iter().collect());
                if again.output.len() > MOST {
                    return Ok(());
                }
                self.written(r, &again, name::LENGTH, again.output.len())
            }
        }
    }

    /// Batches with as many images as there may be, and with more, out of small ones.
    pub fn full(&mut self, first: u64, singles: &[Single]) -> Result<(), String> {
        let mut r = Random::new(self.seed.rotate_left(16), first);
        let plain = plain();
        let small: Vec<&Single> = singles.iter().filter(|s| s.small()).collect();
        let beyond = r.between(1, 3);
        let images: Vec<&Single> = (0..MOST_IMAGES + beyond)
            .map(|_| match r.any(&small) {
                Some(image) if r.chance(1, 8) => image,
                _ => &plain[r.below(plain.len())],
            })
            .collect();
        let more = Row::of(images.clone());
        let full = Row::of(images[..MOST_IMAGES].to_vec());
        let needed = full.output.len();
        self.sums.batch(MOST_IMAGES, full.bytes.len(), needed);
        self.written(&mut r, &full, name::FULL, needed)?;
        self.short(&mut r, &full, name::FULL_SHORT, needed - 1)?;
        let at = full.bytes.len();
        self.at_fault(&mut r, &full, name::MORE, &more.bytes, at)?;
        let start = more.cut_in_start(&mut r, MOST_IMAGES);
        let tagged = more.other_tag(&mut r, MOST_IMAGES);
        for bytes in [start, tagged] {
            self.at_fault(&mut r, &full, name::MORE_FAULT, &bytes, at)?;
        }
        let before = r.below(MOST_IMAGES);
        let tagged = more.other_tag(&mut r, before);
        let at = full.starts[before];
        self.at_fault(&mut r, &full, name::FAULT_MORE, &tagged, at)?;
        self.one_pass(&mut r, &plain, &small)
    }

    /// Outputs about as long as the longest that the library makes in one pass: of 4,096 images without
    /// a report, and of one with a report and fewer or as many of those.
    fn one_pass(
        &mut self,
        r: &mut Random,
        plain: &[Single],
        small: &[&Single],
    ) -> Result<(), String> {
        let mut images: Vec<&Single> = (0..MOST_IMAGES)
            .map(|_| &plain[r.below(plain.len())])
            .collect();
        let bare = Row::of(images.clone());
        self.written(r, &bare, name::BARE, bare.output.len())?;
        let Some(&reported) = small.iter().find(|s| !s.report.is_empty()) else {
            return Ok(());
        };
        images[0] = reported;
        let fewest = MOST_IMAGES - reported.report.len().div_ceil(SUMMARY_SIZE);
        for count in fewest..=MOST_IMAGES {
            let row = Row::of(images[..count].to_vec());
            self.written(r, &row, name::ONE_REPORT, row.output.len())?;
        }
        Ok(())
    }

    /// A call that writes the whole output.
    fn written(
        &mut self,
        r: &mut Random,
        row: &Row,
        name: &'static str,
        room: usize,
    ) -> Result<(), String> {
        let bytes = &row.bytes;
        let lent = Lending { name, bytes, room };
        let needed = row.output.len();
        let expected = OceBatchAnswer {
            refusal: 0,
            at: 0,
            written: needed as u64,
        };
        self.call(r, lent, expected, needed)
            .and_then(|()| self.as_expected(row))
            .map_err(|what| differs(row, lent, what))
    }

    /// The output beside what single calls gave, then beside what the oracle tells.
    fn as_expected(&self, row: &Row) -> Result<(), String> {
        let output = self.output.start(row.output.len());
        if let Some(at) = (0..output.len()).find(|&at| output[at] != row.output[at]) {
            let number = row.parts.partition_point(|&part| part <= at) - 1;
            return Err(format!(
                "output byte {at}, byte {} of the part of image {number}, is {} instead of {}",
                at - row.parts[number],
                output[at],
                row.output[at]
            ));
        }
        for (number, (single, &part)) in row.images.iter().zip(&row.parts).enumerate() {
            let Some(told) = &single.told else { continue };
            let report = &output[part + SUMMARY_SIZE..][..single.report.len()];
            if report.len() != told.diagnostics.len() * DIAGNOSTIC_LEN {
                return Err(format!("image {number}: not as many diagnostics as told"));
            }
            report_as_told(&single.image, &Fields::of(&single.image), report, told)
                .map_err(|what| format!("image {number}: {what}"))?;
        }
        Ok(())
    }

    /// A call with an output that is too short.
    fn short(
        &mut self,
        r: &mut Random,
        row: &Row,
        name: &'static str,
        room: usize,
    ) -> Result<(), String> {
        let bytes = &row.bytes;
        let lent = Lending { name, bytes, room };
        self.refused(r, row, lent, REFUSED_OUTPUT, row.output.len())
    }

    /// A call for a batch with a field at fault, with an output of any length.
    fn at_fault(
        &mut self,
        r: &mut Random,
        row: &Row,
        name: &'static str,
        bytes: &[u8],
        at: usize,
    ) -> Result<(), String> {
        let needed = row.output.len();
        let room = r.pick(&[0, needed / 2, needed, needed + SPARE]);
        let lent = Lending { name, bytes, room };
        self.refused(r, row, lent, REFUSED_FIELD, at)
    }

    /// A call that must be refused so, and leave the output as it was.
    fn refused(
        &mut self,
        r: &mut Random,
        row: &Row,
        lent: Lending,
        refusal: u64,
        at: usize,
    ) -> Result<(), String> {
        let expected = OceBatchAnswer {
            refusal,
            at: at as u64,
            written: 0,
        };
        *self.sums.refusals.entry(refusal as u32).or_default() += 1;
        self.call(r, lent, expected, 0)
            .map_err(|what| differs(row, lent, what))
    }

    /// Call the library on a batch and an output between guard bytes. It must answer so, and change
    /// nothing but the first bytes of the output.
    fn call(
        &mut self,
        r: &mut Random,
        lent: Lending,
        expected: OceBatchAnswer,
        changed: usize,
    ) -> Result<(), String> {
        let Lending { name, bytes, room } = lent;
        *self.sums.batch_calls.entry(name).or_default() += 1;
        self.batch.prepare(&self.pattern, r, bytes.len());
        self.batch.buffer().copy_from_slice(bytes);
        self.output.prepare(&self.pattern, r, room);
        let answer = sys::check_batch(self.batch.buffer(), self.output.buffer());
        if answer != expected {
            return Err(format!("{answer:?} instead of {expected:?}"));
        }
        if !self.output.untouched_but(&self.pattern, changed) {
            return Err(format!(
                "the output or its guards changed outside of {changed} bytes"
            ));
        }
        if self.batch.start(bytes.len()) != bytes
            || !self.batch.untouched_but(&self.pattern, bytes.len())
        {
            return Err("the batch or its guards changed".to_owned());
        }
        Ok(())
    }
}

/// What is lent in one call, and its name.
#[derive(Clone, Copy)]
struct Lending<'a> {
    name: &'static str,
    bytes: &'a [u8],
    room: usize,
}

/// What differs, with the images that the batch was made of.
fn differs(row: &Row, lent: Lending, what: String) -> String {
    let indices: Vec<String> = row
        .images
        .iter()
        .map(|s| s.index.map_or("-".to_owned(), |index| index.to_string()))
        .collect();
    format!(
        "{}: {} bytes, output of {} bytes, guards {GUARD}: {what}; made of images {}",
        lent.name,
        lent.bytes.len(),
        lent.room,
        indices.join(" ")
    )
}

/// The images of a batch, or the offset of the first field at fault.
fn fields_of(bytes: &[u8]) -> Result<Vec<&[u8]>, usize> {
    let (mut images, mut at) = (Vec::new(), 0);
    while at < bytes.len() {
        let contents = match bytes[at..] {
            [IMAGE_TAG, low, high, ref rest @ ..] if images.len() < MOST_IMAGES => {
                rest.get(..usize::from(u16::from_le_bytes([low, high])))
            }
            _ => None,
        };
        let contents = contents.ok_or(at)?;
        images.push(contents);
        at += FIELD_START + contents.len();
    }
    Ok(images)
}

/// An image with what the single call gives for it, not compared with the oracle.
fn called_alone(image: &[u8]) -> Single {
    let (mut filled, mut report) = (vec![0; image.len()], Vec::new());
    let mut answer = sys::check(image, &mut filled, &mut report);
    if answer.refusal == REFUSED_REPORT {
        report.resize(answer.at as usize, 0);
        answer = sys::check(image, &mut filled, &mut report);
    }
    Single {
        index: None,
        image: image.to_vec(),
        answer,
        report,
        told: None,
    }
}
