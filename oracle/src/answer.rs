//! The oracle's answer to an image: the refusal, or what the unchanged Rust reports and fills.

use std::sync::Arc;

use oce_diag::{DiagCode, Diagnostic, Severity};
use oce_model::{Attrs, ModelGraph};
use oce_validate::RULES;

use crate::format::*;
use crate::places;
use crate::reader::{self, Accepted, Refusal, Texts, raw_attrs};

#[derive(Clone, PartialEq, Eq, Debug)]
pub enum Answer {
    Refused(Refusal),
    Accepted(Report),
}

#[derive(Clone, PartialEq, Eq, Debug)]
pub struct Report {
    /// Whether the Rust can be compared; if not, what rests on Integer defaults may differ.
    pub comparable: bool,
    pub diagnostics: Vec<Told>,
    pub filled: Vec<Filled>,
}

/// One diagnostic of the Rust, with what its call and message tell of the format's numbers.
#[derive(Clone, PartialEq, Eq, Debug)]
pub struct Told {
    pub severity: u8,
    pub code: u8,
    pub rule: u8,
    pub detail: u8,
    pub subject: Subject,
    /// Unknown for 5.4 alone: the Rust doesn't tell the number of members.
    pub place: Option<u32>,
    pub message: String,
}

#[derive(Clone, PartialEq, Eq, Debug)]
pub struct Subject {
    pub kind: u8,
    /// Text number or id. Unknown for 5.4 alone: the Rust makes that text anew from its bytes.
    pub number: Option<u32>,
    pub text: Option<Arc<str>>,
}

/// A record whose attributes the Rust changed.
#[derive(Clone, Copy, PartialEq, Eq, Debug)]
pub struct Filled {
    pub tag: u8,
    pub index: u32,
    pub before: RawAttrs,
    pub after: RawAttrs,
}

/// Rule and detail, as in `5.4`.
pub const COMBINED: (u8, u8) = (5, 4);

impl Report {
    pub fn errors(&self) -> usize {
        self.count(SEVERITY_ERROR)
    }

    pub fn warnings(&self) -> usize {
        self.count(SEVERITY_WARNING)
    }

    fn count(&self, severity: u8) -> usize {
        self.diagnostics
            .iter()
            .filter(|d| d.severity == severity)
            .count()
    }
}

/// Ask the oracle.
pub fn answer(image: &[u8]) -> Answer {
    match reader::read(image) {
        Ok(accepted) => Answer::Accepted(report(&accepted)),
        Err(refusal) => Answer::Refused(refusal),
    }
}

/// Call the six rules on one empty list and write down what they say and fill.
pub fn report(accepted: &Accepted) -> Report {
    let mut model = accepted.model.clone();
    let mut marked = places::Marked::new(&accepted.model);
    let mut diags: Vec<Diagnostic> = Vec::new();
    let mut told = Vec::new();
    for rule in &RULES {
        let had = diags.len();
        let before = diags.clone();
        (rule.check)(&mut model, &mut diags);
        let new = &diags[had..];
        let places = marked.places(rule, before, new);
        for (d, place) in new.iter().zip(places) {
            told.push(tell(rule.number, d, place, &accepted.texts));
        }
    }
    Report {
        comparable: accepted.comparable(),
        diagnostics: told,
        filled: filled(&accepted.model, &model, &accepted.texts),
    }
}

fn tell(rule: u8, d: &Diagnostic, place: Option<u32>, texts: &Texts) -> Told {
    Told {
        severity: match d.severity {
            Severity::Error => SEVERITY_ERROR,
            Severity::Warning | Severity::Info => SEVERITY_WARNING,
        },
        code: code(d.code),
        rule,
        detail: detail(rule, &d.message),
        subject: subject(d, texts),
        place,
        message: d.message.clone(),
    }
}

/// The number of a code in the format; 0 for one that rules 1 to 6 don't raise.
fn code(code: DiagCode) -> u8 {
    match code {
        DiagCode::MalformedDocument => 1,
        DiagCode::DirectionMismatch => 2,
        DiagCode::SingleAssignment => 3,
        DiagCode::TypeMismatch => 4,
        DiagCode::UnitQuantityMismatch => 5,
        DiagCode::BoundMismatch => 6,
        DiagCode::CrossedBounds => 7,
        DiagCode::DisplayUnitDivergence => 8,
        _ => 0,
    }
}

/// The names of the codes, by number.
pub fn code_name(code: u8) -> &'static str {
    match code {
        1 => "MalformedDocument",
        2 => "DirectionMismatch",
        3 => "SingleAssignment",
        4 => "TypeMismatch",
        5 => "UnitQuantityMismatch",
        6 => "BoundMismatch",
        7 => "CrossedBounds",
        8 => "DisplayUnitDivergence",
        _ => "unknown",
    }
}

/// The detail, from the rule that was called and its message; 0 if the message is unknown.
pub fn detail(rule: u8, message: &str) -> u8 {
    let starts = |start: &str| message.starts_with(start);
    let has = |part: &str| message.contains(part);
    match rule {
        1 if starts("block id invariant") => 1,
        1 if starts("block id ") && has(" input port ") => 2,
        1 if starts("block id ") && has(" output port ") => 3,
        1 if starts("connector id invariant") => 4,
        1 if starts("connector id ") => 5,
        2 if starts("boundary output references") => 1,
        2 if starts("boundary output source") => 2,
        2 if starts("boundary output attribute") => 3,
        3 if starts("input connector has in-degree 0 ") => 1,
        3 if starts("input connector has in-degree ") => 2,
        4 if starts("connection #") => 1,
        4 if starts("connection source") => 2,
        4 if starts("connection target") => 3,
        4 if starts("connection joins") => 4,
        5 if starts("the combined ") => 4,
        5 if has(" connector; the declared range") => 1,
        5 if has(" boundary input; the declared range") => 2,
        5 if has(" boundary output; the declared range") => 3,
        6 if starts("connected cluster members declare conflicting ") => conflict(message),
        6 if starts("connected cluster members declare divergent displayUnit") => 7,
        6 if starts("§7.10 propagation ") => 8,
        _ => 0,
    }
}

/// Details 1 to 6 of rule 6. Real and Integer ends have one label: an Integer's values are digits.
fn conflict(message: &str) -> u8 {
    let rest = message.trim_start_matches("connected cluster members declare conflicting ");
    let label = rest.split(' ').next().unwrap_or("");
    let values = rest.split_once('[').map_or("", |(_, values)| values);
    let values = values.split_once(']').map_or("", |(values, _)| values);
    let integer = values
        .chars()
        .all(|c| c.is_ascii_digit() || "-\", ".contains(c));
    match (label, integer) {
        ("unit", _) => 1,
        ("quantity", _) => 2,
        ("min", false) => 3,
        ("max", false) => 4,
        ("min", true) => 5,
        ("max", true) => 6,
        _ => 0,
    }
}

/// A subject that is one of the image's texts is told by identity, so a text `block#1` isn't
/// taken for a block. Anything else the Rust made itself: a synthetic subject, or 5.4's path.
fn subject(d: &Diagnostic, texts: &Texts) -> Subject {
    let Some(text) = &d.subject else {
        return Subject {
            kind: SUBJECT_NONE,
            number: Some(0),
            text: None,
        };
    };
    let id = |start: &str| text.strip_prefix(start).and_then(|id| id.parse().ok());
    let (kind, number) = if let Some(number) = texts.number(text) {
        (SUBJECT_TEXT, Some(u32::from(number)))
    } else if d.message.starts_with("the combined ") {
        (SUBJECT_TEXT, None)
    } else if let Some(id) = id("connector#") {
        (SUBJECT_CONNECTOR, Some(id))
    } else {
        (SUBJECT_BLOCK, id("block#"))
    };
    Subject {
        kind,
        number,
        text: Some(Arc::clone(text)),
    }
}

/// Every connector and boundary output whose attribute bytes differ after the calls.
fn filled(before: &ModelGraph, after: &ModelGraph, texts: &Texts) -> Vec<Filled> {
    let connectors = before.connectors.iter().zip(&after.connectors);
    let inputs = before.boundary_inputs.iter().zip(&after.boundary_inputs);
    let outputs = before.boundary_outputs.iter().zip(&after.boundary_outputs);
    let mut all = Vec::new();
    all.extend(changed(
        TAG_CONNECTOR,
        connectors.map(|(a, b)| (&a.attrs, &b.attrs)),
        texts,
    ));
    all.extend(changed(
        TAG_BOUNDARY_INPUT,
        inputs.map(|(a, b)| (&a.attrs, &b.attrs)),
        texts,
    ));
    all.extend(changed(
        TAG_BOUNDARY_OUTPUT,
        outputs.map(|(a, b)| (&a.attrs, &b.attrs)),
        texts,
    ));
    all
}

fn changed<'a>(
    tag: u8,
    pairs: impl Iterator<Item = (&'a Attrs, &'a Attrs)>,
    texts: &Texts,
) -> Vec<Filled> {
    pairs
        .enumerate()
        .map(|(index, (before, after))| Filled {
            tag,
            index: index as u32,
            before: raw_attrs(before, texts),
            after: raw_attrs(after, texts),
        })
        .filter(|slot| slot.before != slot.after)
        .collect()
}
