//! Published rules beside the six, which the library hands out for later comparison.

use std::sync::Arc;

use oracle::answer::{Answer, answer};
use oracle::format::*;
use oracle::image::{BoundaryInput, Draft};
use oracle::reader::read;
use oracle::{TimeTable, check_finite_bounds};

use oce_diag::{DiagCode, Diagnostic};
use oce_model::{BlockId, BlockInstance, ParamTable, Value};

#[test]
fn finite_bounds_are_judged_apart() {
    let mut draft = Draft::default();
    let iri = draft.text(b"u");
    let mut attrs = RawAttrs::of_kind(KIND_REAL);
    attrs.set = SET_MIN | SET_NOMINAL;
    attrs.min = f64::NAN.to_bits();
    attrs.nominal = f64::INFINITY.to_bits();
    draft.boundary_inputs.push(BoundaryInput { iri, attrs });
    let image = draft.bytes();
    let Answer::Accepted(report) = answer(&image) else {
        panic!("refused")
    };
    assert!(report.diagnostics.is_empty());
    let Ok(accepted) = read(&image) else {
        panic!("refused")
    };
    let mut diags = Vec::new();
    check_finite_bounds(&accepted.model, &mut diags);
    let codes: Vec<DiagCode> = diags.iter().map(|d| d.code).collect();
    assert_eq!(codes, [DiagCode::NonFiniteBound; 2]);
}

fn table(cells: &[(&str, f64)]) -> Vec<Diagnostic> {
    let values = cells
        .iter()
        .map(|(name, value)| (Arc::from(*name), Value::Real(*value)))
        .collect();
    let block = BlockInstance {
        id: BlockId(0),
        class_iri: Arc::from("class"),
        inputs: Vec::new(),
        outputs: Vec::new(),
        params: ParamTable { values },
        decl_order: 0,
        instance_iri: None,
    };
    let rule = TimeTable {
        base: "table",
        time_scale: "timeScale",
        extrapolation: None,
    };
    let mut diags = Vec::new();
    rule.check(&block, &mut diags);
    diags
}

#[test]
fn time_tables_can_be_asked() {
    let good = [
        ("table_1_1", 0.0),
        ("table_1_2", 5.0),
        ("table_+2_1", 1.0),
        ("table_2_02", 6.0),
    ];
    assert!(table(&good).is_empty());
    let falling = [
        ("table_1_1", 1.0),
        ("table_1_2", 5.0),
        ("table_2_1", 0.0),
        ("table_2_2", 6.0),
    ];
    let diags = table(&falling);
    assert_eq!(diags.len(), 1);
    assert!(diags[0].message.contains("row 2 is before row 1"));
    assert_eq!(table(&[])[0].code, DiagCode::MissingRequiredParameter);
}
