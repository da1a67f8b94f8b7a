//! The answer as text. Each diagnostic's line has the form of FORMAT.md's printed report,
//! `?` standing for what the Rust doesn't tell; its message and the fillings follow, indented.

use std::fmt::Write;

use crate::answer::{Answer, Filled, Report, Told, code_name};
use crate::format::*;

pub fn print(answer: &Answer) -> String {
    match answer {
        Answer::Refused(refusal) => format!("refused {} at {}\n", refusal.number, refusal.at),
        Answer::Accepted(report) => print_report(report),
    }
}

fn print_report(report: &Report) -> String {
    let mut out = format!(
        "errors {} warnings {}\n",
        report.errors(),
        report.warnings()
    );
    for told in &report.diagnostics {
        out.push_str(&diagnostic_line(told));
        let _ = writeln!(out, "\n\t{}", told.message);
    }
    for slot in &report.filled {
        print_filled(&mut out, slot);
    }
    if !report.comparable {
        out.push_str("\tnote: the head's Integer defaults aren't the Rust's; ");
        out.push_str("what rests on them can't be compared\n");
    }
    out
}

/// Severity, code, rule and detail, place, subject.
pub fn diagnostic_line(told: &Told) -> String {
    let severity = if told.severity == SEVERITY_ERROR {
        "error"
    } else {
        "warning"
    };
    let place = told
        .place
        .map_or_else(|| "?".to_owned(), |place| place.to_string());
    format!(
        "{severity} {} {}.{} {place} {}",
        code_name(told.code),
        told.rule,
        told.detail,
        told.subject.text.as_deref().unwrap_or("-")
    )
}

/// A line for every attribute that differs.
fn print_filled(out: &mut String, slot: &Filled) {
    let record = match slot.tag {
        TAG_CONNECTOR => "connector",
        TAG_BOUNDARY_INPUT => "boundary input",
        _ => "boundary output",
    };
    let (was, is) = (slot.before, slot.after);
    let mut line = |bit: u8, what: &str, differs: bool, value: String| {
        if differs || was.has(bit) != is.has(bit) {
            let _ = writeln!(out, "\tfilled {record} {} {what} {value}", slot.index);
        }
    };
    let text = |number: u16| format!("text {number}");
    let end = |bits: u64| end(is.kind, bits);
    line(
        SET_QUANTITY,
        "quantity",
        was.quantity != is.quantity,
        text(is.quantity),
    );
    line(SET_UNIT, "unit", was.unit != is.unit, text(is.unit));
    line(
        SET_DISPLAY_UNIT,
        "display unit",
        was.display_unit != is.display_unit,
        text(is.display_unit),
    );
    line(SET_MIN, "min", was.min != is.min, end(is.min));
    line(SET_MAX, "max", was.max != is.max, end(is.max));
    line(
        SET_NOMINAL,
        "nominal",
        was.nominal != is.nominal,
        end(is.nominal),
    );
}

fn end(kind: u8, bits: u64) -> String {
    if kind == KIND_INTEGER {
        format!("{}", bits as i64)
    } else {
        format!("{:?} (bits {bits:016x})", f64::from_bits(bits))
    }
}
