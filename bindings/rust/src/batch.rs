//! A batch: images in a row of fields, checked by one call.

use std::error::Error;
use std::fmt;

use crate::answer;
use crate::sys::{self, OceAnswer, OceBatchAnswer};
use crate::{Checked, DIAGNOSTIC_SIZE, Diagnostic, Diagnostics, Refusal, diagnostics};

/// A batch has no more images.
pub const BATCH_IMAGES_MOST: usize = 4_096;

/// The bytes of the field that stands before each image's report.
pub const SUMMARY_SIZE: usize = 16;

/// A call for a batch takes less stack than this.
pub const BATCH_STACK_SIZE: usize = 524_288;

const IMAGE_TAG: u8 = 0x30;
const SUMMARY_TAG: u8 = 0x31;
const SUMMARY_LENGTH: [u8; 2] = [13, 0];

/// Why a batch is turned away.
#[derive(Clone, Copy, PartialEq, Eq, Debug)]
#[non_exhaustive]
pub enum BatchRefusal {
    /// 11: a field is cut short, has another tag, or is one too many. `at` is the offset of the
    /// first one at fault.
    Field { at: usize },
    /// 12: the output buffer is shorter than the output.
    OutputShort { needed: usize },
    /// A number that this crate doesn't know: the library is newer.
    Other { number: u64, at: usize },
}

impl BatchRefusal {
    /// The number of the refusal, and the field's offset or the bytes needed.
    pub fn numbers(self) -> (u64, usize) {
        match self {
            Self::Field { at } => (11, at),
            Self::OutputShort { needed } => (12, needed),
            Self::Other { number, at } => (number, at),
        }
    }
}

impl fmt::Display for BatchRefusal {
    fn fmt(&self, f: &mut fmt::Formatter<'_>) -> fmt::Result {
        let (number, at) = self.numbers();
        write!(f, "refused {number} at {at}")
    }
}

impl Error for BatchRefusal {}

fn of(answer: OceBatchAnswer) -> Result<usize, BatchRefusal> {
    // both count bytes of buffers of this program
    let (at, written) = (answer.at as usize, answer.written as usize);
    Err(match answer.refusal {
        0 => return Ok(written),
        11 => BatchRefusal::Field { at },
        12 => BatchRefusal::OutputShort { needed: at },
        number => BatchRefusal::Other { number, at },
    })
}

/// Check a batch of model images; how many bytes were written.
///
/// `output` then starts with so many bytes that [`results`] takes apart: for each image what
/// [`check`](crate::check) gives for it alone with the room that it needs, filled images left aside.
/// If the batch is refused, `output` keeps its bytes. Bytes behind the results never change.
pub fn check_batch(batch: &[u8], output: &mut [u8]) -> Result<usize, BatchRefusal> {
    of(sys::check_batch(batch, output))
}

/// An image of more than [`IMAGE_MOST`](crate::IMAGE_MOST) bytes doesn't fit a field. The single
/// call refuses it too, for its size.
#[derive(Clone, Copy, PartialEq, Eq, Debug)]
pub struct TooLong {
    pub bytes: usize,
}

impl fmt::Display for TooLong {
    fn fmt(&self, f: &mut fmt::Formatter<'_>) -> fmt::Result {
        write!(f, "an image of {} bytes doesn't fit a field", self.bytes)
    }
}

impl Error for TooLong {}

/// Append a field with an image to a batch. An image that doesn't fit leaves the batch as it is.
/// Images are not counted here: the call refuses a batch with too many.
pub fn push_image(batch: &mut Vec<u8>, image: &[u8]) -> Result<(), TooLong> {
    let bytes = image.len();
    let length = u16::try_from(bytes).map_err(|_| TooLong { bytes })?;
    batch.push(IMAGE_TAG);
    batch.extend(length.to_le_bytes());
    batch.extend(image);
    Ok(())
}

/// The results of the images at the start of an output, one for each, in their order.
pub fn results(output: &[u8]) -> Results<'_> {
    Results { rest: output }
}

/// Each image's counts and diagnostics, or its refusal. Ends early where the bytes aren't an output.
#[derive(Clone, Debug)]
pub struct Results<'a> {
    rest: &'a [u8],
}

impl<'a> Iterator for Results<'a> {
    type Item = Result<(Checked, Diagnostics<'a>), Refusal>;

    fn next(&mut self) -> Option<Self::Item> {
        // what isn't a result ends all of them
        let (summary, rest) = std::mem::take(&mut self.rest).split_first_chunk()?;
        let checked = match answer::of(summed_up(summary)?) {
            Ok(checked) => checked,
            Err(refusal) => {
                self.rest = rest;
                return Some(Err(refusal));
            }
        };
        let size = checked.diagnostics().checked_mul(DIAGNOSTIC_SIZE)?;
        let (report, rest) = rest.split_at_checked(size)?;
        self.rest = rest;
        Some(Ok((checked, diagnostics(checked, report))))
    }
}

/// Take 16 bytes apart; none if they don't sum up a check.
fn summed_up(bytes: &[u8; SUMMARY_SIZE]) -> Option<OceAnswer> {
    let number =
        |at: usize| u32::from_le_bytes([bytes[at], bytes[at + 1], bytes[at + 2], bytes[at + 3]]);
    let answer = OceAnswer {
        refusal: bytes[3].into(),
        at: number(4),
        errors: number(8),
        warnings: number(12),
    };
    let fits = match answer.refusal {
        0 => answer.at == 0,
        _ => (answer.errors, answer.warnings) == (0, 0),
    };
    (bytes[0] == SUMMARY_TAG && bytes[1..3] == SUMMARY_LENGTH && fits).then_some(answer)
}

/// What [`check_images`] found of one image.
#[derive(Clone, PartialEq, Eq, Debug)]
pub struct Reported {
    pub checked: Checked,
    pub diagnostics: Vec<Diagnostic>,
}

/// Why [`check_images`] checked nothing.
#[derive(Clone, Copy, PartialEq, Eq, Debug)]
#[non_exhaustive]
pub enum Unchecked {
    /// The image of this number, from 0, doesn't fit a field.
    TooLong { image: usize, bytes: usize },
    /// The batch is refused: there are more than [`BATCH_IMAGES_MOST`] images.
    Refused(BatchRefusal),
}

impl fmt::Display for Unchecked {
    fn fmt(&self, f: &mut fmt::Formatter<'_>) -> fmt::Result {
        match *self {
            Self::TooLong { image, bytes } => write!(f, "image {image}: {}", TooLong { bytes }),
            Self::Refused(refusal) => refusal.fmt(f),
        }
    }
}

impl Error for Unchecked {}

impl From<BatchRefusal> for Unchecked {
    fn from(refusal: BatchRefusal) -> Self {
        Self::Refused(refusal)
    }
}

/// Check model images in one batch, with buffers of our own: never refused for a buffer. A result
/// for each image, in their order.
pub fn check_images<I>(images: I) -> Result<Vec<Result<Reported, Refusal>>, Unchecked>
where
    I: IntoIterator,
    I::Item: AsRef<[u8]>,
{
    let mut batch = Vec::new();
    for (number, image) in images.into_iter().enumerate() {
        push_image(&mut batch, image.as_ref()).map_err(|TooLong { bytes }| {
            let image = number;
            Unchecked::TooLong { image, bytes }
        })?;
    }
    let mut output = Vec::new();
    let written = match check_batch(&batch, &mut output) {
        Err(BatchRefusal::OutputShort { needed }) => {
            output.resize(needed, 0);
            check_batch(&batch, &mut output)?
        }
        other => other?,
    };
    output.truncate(written);
    let reported = |(checked, diagnostics): (Checked, Diagnostics<'_>)| Reported {
        checked,
        diagnostics: diagnostics.collect(),
    };
    Ok(results(&output)
        .map(|result| result.map(reported))
        .collect())
}
