//! The diagnostics of a report.

use std::fmt;

use crate::Checked;

/// The bytes of one diagnostic.
pub const DIAGNOSTIC_SIZE: usize = 19;

const TAG: u8 = 0x20;
const LENGTH: [u8; 2] = [16, 0];

#[derive(Clone, Copy, PartialEq, Eq, Debug)]
pub enum Severity {
    Error,
    Warning,
}

#[derive(Clone, Copy, PartialEq, Eq, Debug)]
#[non_exhaustive]
pub enum Code {
    MalformedDocument,
    DirectionMismatch,
    SingleAssignment,
    TypeMismatch,
    UnitQuantityMismatch,
    BoundMismatch,
    CrossedBounds,
    DisplayUnitDivergence,
}

/// What a diagnostic is about.
#[derive(Clone, Copy, PartialEq, Eq, Debug)]
pub enum Subject {
    None,
    /// The image's text with this number, from 0.
    Text(u32),
    /// The connector with this id.
    Connector(u32),
    /// The block with this id.
    Block(u32),
}

#[derive(Clone, Copy, PartialEq, Eq, Debug)]
pub struct Diagnostic {
    pub severity: Severity,
    pub code: Code,
    pub rule: u8,
    pub detail: u8,
    pub subject: Subject,
    /// A record's number unless the rule says otherwise.
    pub place: u32,
}

impl Diagnostic {
    /// Take 19 bytes apart; none if they aren't a diagnostic.
    pub fn from_bytes(bytes: &[u8; DIAGNOSTIC_SIZE]) -> Option<Self> {
        let number = |at: usize| {
            u32::from_le_bytes([bytes[at], bytes[at + 1], bytes[at + 2], bytes[at + 3]])
        };
        if bytes[0] != TAG || bytes[1..3] != LENGTH || bytes[8..11] != [0; 3] {
            return None;
        }
        Some(Self {
            severity: severity(bytes[3])?,
            code: code(bytes[4])?,
            rule: bytes[5],
            detail: bytes[6],
            subject: subject(bytes[7], number(11))?,
            place: number(15),
        })
    }
}

fn severity(number: u8) -> Option<Severity> {
    match number {
        0 => Some(Severity::Error),
        1 => Some(Severity::Warning),
        _ => None,
    }
}

fn code(number: u8) -> Option<Code> {
    let all = [
        Code::MalformedDocument,
        Code::DirectionMismatch,
        Code::SingleAssignment,
        Code::TypeMismatch,
        Code::UnitQuantityMismatch,
        Code::BoundMismatch,
        Code::CrossedBounds,
        Code::DisplayUnitDivergence,
    ];
    all.get(usize::from(number).checked_sub(1)?).copied()
}

fn subject(kind: u8, number: u32) -> Option<Subject> {
    match kind {
        0 if number == 0 => Some(Subject::None),
        1 => Some(Subject::Text(number)),
        2 => Some(Subject::Connector(number)),
        3 => Some(Subject::Block(number)),
        _ => None,
    }
}

impl fmt::Display for Severity {
    fn fmt(&self, f: &mut fmt::Formatter<'_>) -> fmt::Result {
        f.write_str(match self {
            Self::Error => "error",
            Self::Warning => "warning",
        })
    }
}

/// The numbers of a diagnostic, one line without its end.
impl fmt::Display for Diagnostic {
    fn fmt(&self, f: &mut fmt::Formatter<'_>) -> fmt::Result {
        let (kind, number) = match self.subject {
            Subject::None => (0, 0),
            Subject::Text(number) => (1, number),
            Subject::Connector(id) => (2, id),
            Subject::Block(id) => (3, id),
        };
        write!(
            f,
            "{} code {} rule {}.{} subject {kind} {number} place {}",
            self.severity,
            self.code as u8 + 1,
            self.rule,
            self.detail,
            self.place
        )
    }
}

/// The diagnostics at the start of a report buffer, as many as `checked` counts.
pub fn diagnostics(checked: Checked, report: &[u8]) -> Diagnostics<'_> {
    let size = checked.diagnostics().saturating_mul(DIAGNOSTIC_SIZE);
    Diagnostics {
        rest: report.get(..size).unwrap_or(report),
    }
}

/// Ends early where the bytes aren't a report.
#[derive(Clone, Debug)]
pub struct Diagnostics<'a> {
    rest: &'a [u8],
}

impl Iterator for Diagnostics<'_> {
    type Item = Diagnostic;

    fn next(&mut self) -> Option<Diagnostic> {
        let (first, rest) = self.rest.split_first_chunk()?;
        self.rest = rest;
        Diagnostic::from_bytes(first)
    }
}
