//! One image, given to the library and to the oracle.

use oce::sys::{self, OceAnswer};
use oracle::answer::{COMBINED, Report, Told, report};
use oracle::bench;
use oracle::format::*;
use oracle::generator::generate_with_family;
use oracle::random::Random;
use oracle::reader::read;

use crate::batches::Single;
use crate::fields::Fields;
use crate::heavy;
use crate::lent::{GUARD, Lent, MOST, Pattern};
use crate::sums::Sums;

const REFUSED_FILLED: u32 = 9;
pub const REFUSED_REPORT: u32 = 10;

/// Names of the calls, for the table and for differences.
const ROOM: &str = "with room to spare";
const EXACT: &str = "of the exact lengths";
const ANY: &str = "of any lengths, image to be refused";
const FILLED_SHORT: &str = "filled one byte short";
const FILLED_SHORTER: &str = "both too short";
const REPORT_SHORT: &str = "report one byte short";
const REPORT_SHORTER: &str = "report shorter";

/// Where the parts of a diagnostic stand.
mod part {
    pub const TAG: usize = 0;
    pub const SEVERITY: usize = 3;
    pub const CODE: usize = 4;
    pub const RULE: usize = 5;
    pub const DETAIL: usize = 6;
    pub const KIND: usize = 7;
    pub const ZEROS: usize = 8;
    pub const NUMBER: usize = 11;
    pub const PLACE: usize = 15;
}
const DIAGNOSTIC_START: [u8; 3] = [0x20, 16, 0];

/// Where images come from.
#[derive(Clone, Copy)]
pub enum Source {
    /// The generator's images of this seed.
    Seed(u64),
    /// The benchmark's images, then those that are built to be slow.
    Bench,
}

impl Source {
    pub fn seed(self) -> u64 {
        match self {
            Self::Seed(seed) => seed,
            Self::Bench => bench::SEED,
        }
    }

    /// The image of an index and its family; none where there are no more.
    fn image(self, index: u64) -> Option<(String, Vec<u8>)> {
        match self {
            Self::Seed(seed) => {
                let (family, image) = generate_with_family(seed, index);
                Some((format!("{family:?}"), image))
            }
            Self::Bench if index < bench::IMAGES => {
                Some(("benchmark".to_owned(), bench::image(index)))
            }
            Self::Bench => {
                let number = (index - bench::IMAGES) as usize;
                let (name, image) = heavy::images().into_iter().nth(number)?;
                Some((format!("slow: {name}"), image))
            }
        }
    }
}

/// Compares images of one source; holds the memory that is lent, and the sums.
pub struct Comparison {
    source: Source,
    pattern: Pattern,
    image: Lent,
    filled: Lent,
    report: Lent,
    pub sums: Sums,
}

/// What an image gives: the answer, the report's bytes, and what the oracle tells where it can be
/// compared.
type Given = (OceAnswer, Vec<u8>, Option<Report>);

/// The lengths lent in one call, and its name.
#[derive(Clone, Copy)]
struct Room {
    name: &'static str,
    filled: usize,
    report: usize,
}

impl Comparison {
    pub fn new(source: Source) -> Self {
        Self {
            source,
            pattern: Pattern::new(source.seed()),
            image: Lent::default(),
            filled: Lent::default(),
            report: Lent::default(),
            sums: Sums::default(),
        }
    }

    /// Compare the image of an index, if there is one; what it gives, or what differs first.
    pub fn image(&mut self, index: u64) -> Result<Option<Single>, String> {
        let Some((family, image)) = self.source.image(index) else {
            return Ok(None);
        };
        let mut r = Random::new(!self.source.seed(), index);
        self.sums.images += 1;
        self.sums.bytes += image.len();
        let found = self.compare(&mut r, &image);
        let found = found.map_err(|what| format!("family {family}: {what}"));
        *self.sums.families.entry(family).or_default() += 1;
        let (answer, report, told) = found?;
        Ok(Some(Single {
            index: Some(index),
            image,
            answer,
            report,
            told,
        }))
    }

    fn compare(&mut self, r: &mut Random, image: &[u8]) -> Result<Given, String> {
        let accepted = match read(image) {
            Ok(accepted) => accepted,
            Err(refusal) => {
                let room = Room {
                    name: ANY,
                    filled: r.pick(&[0, 1, image.len(), image.len() + 40]),
                    report: r.pick(&[0, 1, DIAGNOSTIC_LEN, 4_000]),
                };
                let answer = self.refused(r, image, room, refusal.number.into(), refusal.at)?;
                return Ok((answer, Vec::new(), None));
            }
        };
        self.sums.accepted += 1;
        let told = accepted.comparable().then(|| report(&accepted));
        let (answer, size) = match &told {
            Some(told) => self.compared(r, image, told)?,
            None => self.only_called(r, image)?,
        };
        let report = self.report.start(size).to_vec();
        self.too_short(r, image, size)?;
        Ok((answer, report, told))
    }

    /// An image whose whole answer the oracle tells: with room to spare, then with none.
    fn compared(
        &mut self,
        r: &mut Random,
        image: &[u8],
        told: &Report,
    ) -> Result<(OceAnswer, usize), String> {
        let size = told.diagnostics.len() * DIAGNOSTIC_LEN;
        let fields = Fields::of(image);
        let mut filled = image.to_vec();
        for slot in &told.filled {
            filled[fields.attributes(slot.tag, slot.index)].copy_from_slice(&slot.after.to_bytes());
        }
        let spare = Room {
            name: ROOM,
            filled: image.len() + r.between(1, 200),
            report: size + r.between(1, 200),
        };
        let exact = Room {
            name: EXACT,
            filled: image.len(),
            report: size,
        };
        let expected = OceAnswer {
            refusal: 0,
            at: 0,
            errors: told.errors() as u32,
            warnings: told.warnings() as u32,
        };
        for room in [spare, exact] {
            let answer = self.call(r, image, room)?;
            if answer != expected {
                return Err(self.differs(room, format!("{answer:?} instead of {expected:?}")));
            }
            report_as_told(image, &fields, self.report.start(size), told)
                .map_err(|what| self.differs(room, what))?;
            let here = self.filled.start(image.len());
            if let Some(at) = (0..image.len()).find(|&at| here[at] != filled[at]) {
                let what = format!(
                    "filled byte {at} is {} instead of {}, the image has {}",
                    here[at], filled[at], image[at]
                );
                return Err(self.differs(room, what));
            }
            self.untouched(room, image.len(), size)?;
        }
        self.count(told);
        Ok((expected, size))
    }

    /// An image with other Integer defaults: that it is checked, and what isn't touched.
    fn only_called(&mut self, r: &mut Random, image: &[u8]) -> Result<(OceAnswer, usize), String> {
        self.sums.other_defaults += 1;
        let room = Room {
            name: ROOM,
            filled: image.len() + r.between(1, 200),
            report: MOST,
        };
        let answer = self.call(r, image, room)?;
        if (answer.refusal, answer.at) != (0, 0) {
            return Err(self.differs(room, format!("{answer:?} for an accepted image")));
        }
        let size = (answer.errors as usize + answer.warnings as usize) * DIAGNOSTIC_LEN;
        self.untouched(room, image.len(), size)?;
        let room = Room {
            name: EXACT,
            filled: image.len(),
            report: size,
        };
        let again = self.call(r, image, room)?;
        if again != answer {
            return Err(self.differs(room, format!("{again:?} instead of {answer:?}")));
        }
        self.untouched(room, room.filled, room.report)?;
        Ok((answer, size))
    }

    /// Refusals 9 and 10 of an accepted image whose report has `size` bytes.
    fn too_short(&mut self, r: &mut Random, image: &[u8], size: usize) -> Result<(), String> {
        let whole = image.len();
        let short = Room {
            name: FILLED_SHORT,
            filled: whole - 1,
            report: size,
        };
        self.refused(r, image, short, REFUSED_FILLED, whole as u32)?;
        let shorter = Room {
            name: FILLED_SHORTER,
            filled: r.below(whole),
            report: r.below(size + 1),
        };
        self.refused(r, image, shorter, REFUSED_FILLED, whole as u32)?;
        if size == 0 {
            return Ok(());
        }
        let short = Room {
            name: REPORT_SHORT,
            filled: whole,
            report: size - 1,
        };
        self.refused(r, image, short, REFUSED_REPORT, size as u32)?;
        let shorter = Room {
            name: REPORT_SHORTER,
            filled: whole + r.below(100),
            report: r.below(size),
        };
        self.refused(r, image, shorter, REFUSED_REPORT, size as u32)?;
        Ok(())
    }

    /// A call that must be refused so, and leave everything as it was.
    fn refused(
        &mut self,
        r: &mut Random,
        image: &[u8],
        room: Room,
        refusal: u32,
        at: u32,
    ) -> Result<OceAnswer, String> {
        let answer = self.call(r, image, room)?;
        let expected = OceAnswer {
            refusal,
            at,
            errors: 0,
            warnings: 0,
        };
        if answer != expected {
            return Err(self.differs(room, format!("{answer:?} instead of {expected:?}")));
        }
        self.untouched(room, 0, 0)?;
        *self.sums.refusals.entry(refusal).or_default() += 1;
        Ok(answer)
    }

    /// Call the library on an image and buffers between guard bytes; the image must stay as it is.
    fn call(&mut self, r: &mut Random, image: &[u8], room: Room) -> Result<OceAnswer, String> {
        *self.sums.calls.entry(room.name).or_default() += 1;
        self.image.prepare(&self.pattern, r, image.len());
        self.image.buffer().copy_from_slice(image);
        self.filled.prepare(&self.pattern, r, room.filled);
        self.report.prepare(&self.pattern, r, room.report);
        let answer = sys::check(
            self.image.buffer(),
            self.filled.buffer(),
            self.report.buffer(),
        );
        if self.image.start(image.len()) != image
            || !self.image.untouched_but(&self.pattern, image.len())
        {
            return Err(self.differs(room, "the image or its guards changed".to_owned()));
        }
        Ok(answer)
    }

    fn untouched(&self, room: Room, filled: usize, report: usize) -> Result<(), String> {
        if !self.filled.untouched_but(&self.pattern, filled) {
            let what = format!("the filled buffer or its guards changed outside of {filled} bytes");
            return Err(self.differs(room, what));
        }
        if !self.report.untouched_but(&self.pattern, report) {
            let what = format!("the report buffer or its guards changed outside of {report} bytes");
            return Err(self.differs(room, what));
        }
        Ok(())
    }

    fn differs(&self, room: Room, what: String) -> String {
        format!(
            "buffers {} ({} and {} bytes, guards {GUARD}): {what}",
            room.name, room.filled, room.report
        )
    }

    fn count(&mut self, told: &Report) {
        let sums = &mut self.sums;
        sums.with_errors += usize::from(told.errors() > 0);
        sums.with_warnings += usize::from(told.warnings() > 0);
        sums.with_filling += usize::from(!told.filled.is_empty());
        sums.filled_records += told.filled.len();
        sums.diagnostics += told.diagnostics.len();
        let mut seen = Vec::new();
        for d in &told.diagnostics {
            let key = (d.rule, d.detail);
            let sum = sums.details.entry(key).or_default();
            sum.1 += 1;
            if !seen.contains(&key) {
                seen.push(key);
                sum.0 += 1;
            }
        }
    }
}

/// A report's bytes against what the oracle tells. It doesn't tell 5.4's place and text number; of
/// that text the bytes are compared.
pub fn report_as_told(
    image: &[u8],
    fields: &Fields,
    report: &[u8],
    told: &Report,
) -> Result<(), String> {
    let each = report.chunks_exact(DIAGNOSTIC_LEN).zip(&told.diagnostics);
    for (number, (bytes, told)) in each.enumerate() {
        if let Some(what) = diagnostic_differs(image, fields, bytes, told) {
            return Err(format!(
                "diagnostic {number}: {what}; bytes {bytes:?}, the oracle tells {told:?}"
            ));
        }
    }
    Ok(())
}

/// What differs between a diagnostic's bytes and what the oracle tells of it.
fn diagnostic_differs(
    image: &[u8],
    fields: &Fields,
    bytes: &[u8],
    told: &Told,
) -> Option<&'static str> {
    let number =
        |at: usize| u32::from_le_bytes([bytes[at], bytes[at + 1], bytes[at + 2], bytes[at + 3]]);
    let subject = number(part::NUMBER);
    if bytes[part::TAG..part::SEVERITY] != DIAGNOSTIC_START {
        return Some("tag or length");
    }
    if bytes[part::SEVERITY] != told.severity {
        return Some("severity");
    }
    if bytes[part::CODE] != told.code {
        return Some("code");
    }
    if (bytes[part::RULE], bytes[part::DETAIL]) != (told.rule, told.detail) {
        return Some("rule and detail");
    }
    if bytes[part::KIND] != told.subject.kind || bytes[part::ZEROS..part::NUMBER] != [0; 3] {
        return Some("subject kind or zero bytes");
    }
    if told.subject.number.is_some_and(|told| told != subject) {
        return Some("subject number");
    }
    let text = match bytes[part::KIND] {
        SUBJECT_TEXT => fields.text(image, subject).map(<[u8]>::to_vec),
        SUBJECT_CONNECTOR => Some(format!("connector#{subject}").into_bytes()),
        SUBJECT_BLOCK => Some(format!("block#{subject}").into_bytes()),
        _ => None,
    };
    if text.as_deref() != told.subject.text.as_deref().map(str::as_bytes) {
        return Some("subject");
    }
    if told.place.is_some_and(|told| told != number(part::PLACE)) {
        return Some("place");
    }
    let whole = told.place.is_some() && told.subject.number.is_some();
    if !whole && (told.rule, told.detail) != COMBINED {
        return Some("not compared: the oracle tells no place or subject number");
    }
    None
}
