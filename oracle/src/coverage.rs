//! Counts what a set of images shows: families, refusals and details.

use std::collections::BTreeMap;
use std::fmt::Write;

use crate::answer::Answer;
use crate::format::{DETAILS, LAST_READING_REFUSAL};

#[derive(Default)]
pub struct Coverage {
    pub images: usize,
    pub accepted: usize,
    pub with_errors: usize,
    pub with_filling: usize,
    /// Accepted, but with other Integer defaults than the Rust's.
    pub not_comparable: usize,
    refusals: BTreeMap<u8, usize>,
    details: BTreeMap<(u8, u8), Seen>,
}

#[derive(Default, Clone, Copy)]
struct Seen {
    images: usize,
    diagnostics: usize,
}

impl Coverage {
    pub fn add(&mut self, answer: &Answer) {
        self.images += 1;
        let report = match answer {
            Answer::Refused(refusal) => {
                *self.refusals.entry(refusal.number).or_default() += 1;
                return;
            }
            Answer::Accepted(report) => report,
        };
        self.accepted += 1;
        if !report.comparable {
            self.not_comparable += 1;
            return;
        }
        self.with_errors += usize::from(report.errors() > 0);
        self.with_filling += usize::from(!report.filled.is_empty());
        let mut here: BTreeMap<(u8, u8), usize> = BTreeMap::new();
        for told in &report.diagnostics {
            *here.entry((told.rule, told.detail)).or_default() += 1;
        }
        for (key, diagnostics) in here {
            let seen = self.details.entry(key).or_default();
            seen.images += 1;
            seen.diagnostics += diagnostics;
        }
    }

    /// How many images are refused with this number.
    pub fn refused(&self, number: u8) -> usize {
        self.refusals.get(&number).copied().unwrap_or(0)
    }

    /// In how many images this detail occurs.
    pub fn images_with(&self, rule: u8, detail: u8) -> usize {
        self.details
            .get(&(rule, detail))
            .map_or(0, |seen| seen.images)
    }

    /// Refusals and details that don't occur.
    pub fn missing(&self) -> Vec<String> {
        let refusals = (1..=LAST_READING_REFUSAL)
            .filter(|&number| self.refused(number) == 0)
            .map(|number| format!("refusal {number}"));
        let details = details()
            .filter(|&(rule, detail)| self.images_with(rule, detail) == 0)
            .map(|(rule, detail)| format!("{rule}.{detail}"));
        refusals.chain(details).collect()
    }

    /// The table in Markdown.
    pub fn table(&self) -> String {
        let mut out = format!(
            "images {}, accepted {}, of these with errors {}, with something filled {}, with other \
             Integer defaults (not compared) {}\n\n| refusal | images |\n|---|---|\n",
            self.images, self.accepted, self.with_errors, self.with_filling, self.not_comparable
        );
        for number in 1..=LAST_READING_REFUSAL {
            let _ = writeln!(out, "| {number} | {} |", self.refused(number));
        }
        out.push_str("\n| detail | images | diagnostics |\n|---|---|---|\n");
        for key in details() {
            let seen = self.details.get(&key).copied().unwrap_or_default();
            let (rule, detail) = key;
            let _ = writeln!(
                out,
                "| {rule}.{detail} | {} | {} |",
                seen.images, seen.diagnostics
            );
        }
        out
    }
}

/// Every rule and detail of docs/FORMAT.md.
pub fn details() -> impl Iterator<Item = (u8, u8)> {
    (1..)
        .zip(DETAILS)
        .flat_map(|(rule, most)| (1..=most).map(move |detail| (rule, detail)))
}
