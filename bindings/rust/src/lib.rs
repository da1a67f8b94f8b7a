//! The proved checker of CDL control models. `docs/FORMAT.md` tells what an image, a report and a
//! rule are.
//!
//! [`check`] works on bytes that the caller lends and allocates nothing; [`check_image`] makes the
//! buffers itself and takes the report apart. [`check_batch`] and [`check_images`] do the same for
//! many images in one call.

mod answer;
mod batch;
mod diagnostic;
pub mod sys;

pub use answer::{Checked, Refusal};
pub use batch::{
    BATCH_IMAGES_MOST, BATCH_STACK_SIZE, BatchRefusal, Reported, Results, SUMMARY_SIZE, TooLong,
    Unchecked, check_batch, check_images, push_image, results,
};
pub use diagnostic::{
    Code, DIAGNOSTIC_SIZE, Diagnostic, Diagnostics, Severity, Subject, diagnostics,
};

/// The shortest and the longest image that isn't refused for its size.
pub const IMAGE_LEAST: usize = 23;
pub const IMAGE_MOST: usize = 65_535;

/// A call takes less stack than this.
pub const STACK_SIZE: usize = 262_144;

/// Room for so many diagnostics is lent at first by [`check_image`].
const DIAGNOSTICS_AT_FIRST: usize = 64;

/// Check a model image.
///
/// If it is checked, `filled` starts with the image, its attributes filled where there is no error,
/// and `report` with the diagnostics ([`diagnostics`] takes them apart). If it is refused, both keep
/// their bytes. Bytes behind the results never change.
pub fn check(image: &[u8], filled: &mut [u8], report: &mut [u8]) -> Result<Checked, Refusal> {
    answer::of(sys::check(image, filled, report))
}

/// What [`check_image`] found.
#[derive(Clone, PartialEq, Eq, Debug)]
pub struct Outcome {
    pub checked: Checked,
    /// The image, its attributes filled where there is no error.
    pub filled: Vec<u8>,
    pub diagnostics: Vec<Diagnostic>,
}

/// Check a model image, with buffers of our own: never refused for a buffer.
pub fn check_image(image: &[u8]) -> Result<Outcome, Refusal> {
    let mut filled = vec![0; image.len()];
    let mut report = vec![0; DIAGNOSTICS_AT_FIRST * DIAGNOSTIC_SIZE];
    let checked = match check(image, &mut filled, &mut report) {
        Err(Refusal::ReportShort { needed }) => {
            report.resize(needed as usize, 0);
            check(image, &mut filled, &mut report)?
        }
        other => other?,
    };
    Ok(Outcome {
        checked,
        filled,
        diagnostics: diagnostics(checked, &report).collect(),
    })
}
