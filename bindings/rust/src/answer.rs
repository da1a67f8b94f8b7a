//! The answer of a call.

use std::error::Error;
use std::fmt;

use crate::sys::OceAnswer;

/// How many diagnostics the report holds. A model without errors may be loaded.
#[derive(Clone, Copy, PartialEq, Eq, Debug)]
pub struct Checked {
    pub errors: u32,
    pub warnings: u32,
}

impl Checked {
    pub fn diagnostics(self) -> usize {
        self.errors as usize + self.warnings as usize
    }
}

/// Why an image is turned away. `at` is the offset of the first field at fault.
#[derive(Clone, Copy, PartialEq, Eq, Debug)]
#[non_exhaustive]
pub enum Refusal {
    /// 1: the image is too short or too long.
    Size,
    /// 2: a field runs past the image's end.
    Cut { at: u32 },
    /// 3: a tag is unknown, out of order, or a second head.
    Tag { at: u32 },
    /// 4: a field's length isn't its kind's.
    Length { at: u32 },
    /// 5: too many records of a kind.
    Count { at: u32 },
    /// 6: version, direction, type, class or attributes are broken.
    Value { at: u32 },
    /// 7: a text has a byte outside 0x20 to 0x7E.
    TextByte { at: u32 },
    /// 8: a text number that is in use has no text.
    TextNumber { at: u32 },
    /// 9: the filled buffer is shorter than the image.
    FilledShort { needed: u32 },
    /// 10: the report buffer is shorter than the report.
    ReportShort { needed: u32 },
    /// A number that this crate doesn't know: the library is newer.
    Other { number: u32, at: u32 },
}

impl Refusal {
    /// The number of the refusal, and its offset or the bytes needed.
    pub fn numbers(self) -> (u32, u32) {
        match self {
            Self::Size => (1, 0),
            Self::Cut { at } => (2, at),
            Self::Tag { at } => (3, at),
            Self::Length { at } => (4, at),
            Self::Count { at } => (5, at),
            Self::Value { at } => (6, at),
            Self::TextByte { at } => (7, at),
            Self::TextNumber { at } => (8, at),
            Self::FilledShort { needed } => (9, needed),
            Self::ReportShort { needed } => (10, needed),
            Self::Other { number, at } => (number, at),
        }
    }
}

impl fmt::Display for Refusal {
    fn fmt(&self, f: &mut fmt::Formatter<'_>) -> fmt::Result {
        let (number, at) = self.numbers();
        write!(f, "refused {number} at {at}")
    }
}

impl Error for Refusal {}

pub(crate) fn of(answer: OceAnswer) -> Result<Checked, Refusal> {
    let at = answer.at;
    Err(match answer.refusal {
        0 => {
            return Ok(Checked {
                errors: answer.errors,
                warnings: answer.warnings,
            });
        }
        1 => Refusal::Size,
        2 => Refusal::Cut { at },
        3 => Refusal::Tag { at },
        4 => Refusal::Length { at },
        5 => Refusal::Count { at },
        6 => Refusal::Value { at },
        7 => Refusal::TextByte { at },
        8 => Refusal::TextNumber { at },
        9 => Refusal::FilledShort { needed: at },
        10 => Refusal::ReportShort { needed: at },
        number => Refusal::Other { number, at },
    })
}
