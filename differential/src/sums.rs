//! What the compared images show, as a table.

use std::collections::BTreeMap;
use std::fmt::Write;

use oracle::coverage::details;

#[derive(Default)]
pub struct Sums {
    pub families: BTreeMap<String, usize>,
    pub images: usize,
    pub bytes: usize,
    pub accepted: usize,
    /// Accepted, but with other Integer defaults than the Rust's.
    pub other_defaults: usize,
    pub with_errors: usize,
    pub with_warnings: usize,
    pub with_filling: usize,
    pub filled_records: usize,
    pub diagnostics: usize,
    /// Calls of the library, by what was lent.
    pub calls: BTreeMap<&'static str, usize>,
    /// Refusals that the library gave and the oracle or the lent lengths ask for, by number.
    pub refusals: BTreeMap<u32, usize>,
    /// Batches without a field at fault, their images and bytes, and the bytes of their outputs.
    pub batches: usize,
    pub batch_images: usize,
    pub batch_bytes: usize,
    pub output_bytes: usize,
    /// Of these, batches whose output is too long to be made in one pass over their images.
    pub long_outputs: usize,
    /// Images that are too long for a field.
    pub beyond_fields: usize,
    /// Calls for batches, by what was lent.
    pub batch_calls: BTreeMap<&'static str, usize>,
    /// By rule and detail: images and diagnostics.
    pub details: BTreeMap<(u8, u8), (usize, usize)>,
}

/// The library makes a longer output in two passes: 16 bytes for each of 4,096 images.
const ONE_PASS: usize = 65_536;

impl Sums {
    /// A batch without a field at fault.
    pub fn batch(&mut self, images: usize, bytes: usize, output: usize) {
        self.batches += 1;
        self.batch_images += images;
        self.batch_bytes += bytes;
        self.output_bytes += output;
        self.long_outputs += usize::from(output > ONE_PASS);
    }

    pub fn add(&mut self, other: Self) {
        self.images += other.images;
        self.bytes += other.bytes;
        self.accepted += other.accepted;
        self.other_defaults += other.other_defaults;
        self.with_errors += other.with_errors;
        self.with_warnings += other.with_warnings;
        self.with_filling += other.with_filling;
        self.filled_records += other.filled_records;
        self.diagnostics += other.diagnostics;
        self.batches += other.batches;
        self.batch_images += other.batch_images;
        self.batch_bytes += other.batch_bytes;
        self.output_bytes += other.output_bytes;
        self.long_outputs += other.long_outputs;
        self.beyond_fields += other.beyond_fields;
        for (key, count) in other.families {
            *self.families.entry(key).or_default() += count;
        }
        for (key, count) in other.calls {
            *self.calls.entry(key).or_default() += count;
        }
        for (key, count) in other.batch_calls {
            *self.batch_calls.entry(key).or_default() += count;
        }
        for (key, count) in other.refusals {
            *self.refusals.entry(key).or_default() += count;
        }
        for (key, (images, diagnostics)) in other.details {
            let sum = self.details.entry(key).or_default();
            *sum = (sum.0 + images, sum.1 + diagnostics);
        }
    }

    pub fn table(&self) -> String {
        let mut out = String::from("| family | images |\n|---|---|\n");
        for (family, images) in &self.families {
            let _ = writeln!(out, "| {family} | {images} |");
        }
        let _ = write!(
            out,
            "\nimages {}, bytes {}, accepted {}, of these with errors {}, with warnings {}, with something \
             filled {} ({} records), with other Integer defaults {} (not compared beyond refusals and \
             untouched bytes); diagnostics {}\n\n| buffers lent | calls |\n|---|---|\n",
            self.images,
            self.bytes,
            self.accepted,
            self.with_errors,
            self.with_warnings,
            self.with_filling,
            self.filled_records,
            self.other_defaults,
            self.diagnostics
        );
        for (name, calls) in &self.calls {
            let _ = writeln!(out, "| {name} | {calls} |");
        }
        let _ = write!(
            out,
            "\nbatches {}, their images {}, bytes {}, bytes of outputs {}, of these above {ONE_PASS} bytes {}; images in no \
             batch, too long for a field {}\n\n| batch and output lent | calls |\n|---|---|\n",
            self.batches,
            self.batch_images,
            self.batch_bytes,
            self.output_bytes,
            self.long_outputs,
            self.beyond_fields
        );
        for (name, calls) in &self.batch_calls {
            let _ = writeln!(out, "| {name} | {calls} |");
        }
        out.push_str("\n| refusal | calls |\n|---|---|\n");
        for number in 1..=12 {
            let calls = self.refusals.get(&number).copied().unwrap_or(0);
            let _ = writeln!(out, "| {number} | {calls} |");
        }
        out.push_str("\n| detail | images | diagnostics |\n|---|---|---|\n");
        for (rule, detail) in details() {
            let key = (rule, detail);
            let (images, diagnostics) = self.details.get(&key).copied().unwrap_or_default();
            let _ = writeln!(out, "| {rule}.{detail} | {images} | {diagnostics} |");
        }
        out
    }
}
