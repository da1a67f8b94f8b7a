//! The examples of docs/DIFFERENCES.md, asked of the oracle.

use oracle::answer::{Answer, Report, answer};
use oracle::format::*;
use oracle::image::{Block, Connection, Connector, Draft};
use oracle::printed::diagnostic_line;

/// One block, an Out and Ins that it drives, all of one type, with these attributes.
fn star(value_type: u8, members: &[RawAttrs]) -> Draft {
    let connector = |(index, attrs): (usize, &RawAttrs)| Connector {
        id: index as u32,
        block: 0,
        dir: if index == 0 { DIR_OUT } else { DIR_IN },
        value_type,
        enum_class: 0,
        iri: NO_TEXT,
        attrs: *attrs,
    };
    Draft {
        blocks: vec![Block {
            id: 0,
            instance: NO_TEXT,
            inputs: Vec::new(),
            outputs: Vec::new(),
        }],
        connectors: members.iter().enumerate().map(connector).collect(),
        connections: (1..members.len() as u32)
            .map(|to| Connection { from: 0, to })
            .collect(),
        ..Draft::default()
    }
}

fn report(draft: &Draft) -> Report {
    match answer(&draft.bytes()) {
        Answer::Accepted(report) => report,
        Answer::Refused(refusal) => panic!("{refusal:?}"),
    }
}

fn lines(report: &Report) -> Vec<String> {
    report.diagnostics.iter().map(diagnostic_line).collect()
}

#[test]
fn a_declared_default_is_a_declared_value() {
    let mut out = RawAttrs::of_kind(KIND_REAL);
    out.set = SET_UNIT;
    let mut input = out;
    input.unit = 1;
    let mut draft = star(KIND_REAL, &[out, input]);
    draft.texts = vec![Vec::new(), b"K".to_vec()];
    let want = ["error UnitQuantityMismatch 6.1 0 connector#0"];
    assert_eq!(lines(&report(&draft)), want);
}

#[test]
fn attributes_of_another_kind_hide_a_crossed_cluster() {
    let mut min = RawAttrs::of_kind(KIND_REAL);
    min.set = SET_MIN;
    min.min = 5.0_f64.to_bits();
    let mut max = RawAttrs::of_kind(KIND_REAL);
    max.set = SET_MAX;
    max.max = 3.0_f64.to_bits();
    let mut draft = star(KIND_REAL, &[RawAttrs::of_kind(KIND_BOOLEAN), min, max]);
    let first = report(&draft);
    assert!(first.diagnostics.is_empty());
    assert_eq!(first.filled.len(), 2);
    for slot in &first.filled {
        draft.connectors[slot.index as usize].attrs = slot.after;
    }
    let again = [
        "error CrossedBounds 5.1 1 connector#1",
        "error CrossedBounds 5.1 2 connector#2",
    ];
    assert_eq!(lines(&report(&draft)), again);
}

#[test]
fn string_connectors_may_be_connected() {
    let string = RawAttrs::of_kind(KIND_STRING);
    assert!(
        report(&star(KIND_STRING, &[string, string]))
            .diagnostics
            .is_empty()
    );
}
