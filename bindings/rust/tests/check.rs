//! The wrapper over the example images.

use oce::{Checked, Code, DIAGNOSTIC_SIZE, Diagnostic, Refusal, Severity, Subject};

const UNCONNECTED: &[u8] = include_bytes!("../../../examples/images/unconnected-input.image");
const DISPLAY_UNITS: &[u8] = include_bytes!("../../../examples/images/display-units.image");
const CUT: &[u8] = include_bytes!("../../../examples/images/cut.image");

/// What lent buffers hold before a call.
const BEFORE: u8 = 0xA5;

fn error(code: Code, rule: u8, detail: u8) -> Diagnostic {
    Diagnostic {
        severity: Severity::Error,
        code,
        rule,
        detail,
        subject: Subject::Text(0),
        place: 0,
    }
}

#[test]
fn an_image_with_errors() {
    let outcome = oce::check_image(UNCONNECTED).unwrap();
    let errors = [
        error(Code::MalformedDocument, 1, 5),
        error(Code::SingleAssignment, 3, 1),
    ];
    assert_eq!(outcome.diagnostics, errors);
    assert_eq!(outcome.filled, UNCONNECTED);
    let (errors, warnings) = (2, 0);
    assert_eq!(outcome.checked, Checked { errors, warnings });
}

#[test]
fn an_image_that_is_filled() {
    let outcome = oce::check_image(DISPLAY_UNITS).unwrap();
    let (errors, warnings) = (0, 1);
    assert_eq!(outcome.checked, Checked { errors, warnings });
    assert_eq!(
        outcome.diagnostics,
        [Diagnostic {
            severity: Severity::Warning,
            code: Code::DisplayUnitDivergence,
            rule: 6,
            detail: 7,
            subject: Subject::Connector(0),
            place: 0,
        }]
    );
    assert_ne!(outcome.filled, DISPLAY_UNITS);
}

#[test]
fn lent_buffers_keep_what_is_behind_the_results() {
    let mut filled = [BEFORE; 300];
    let mut report = [BEFORE; 60];
    let checked = oce::check(DISPLAY_UNITS, &mut filled, &mut report).unwrap();
    assert_eq!(checked.diagnostics(), 1);
    assert!(filled[DISPLAY_UNITS.len()..].iter().all(|&b| b == BEFORE));
    assert!(report[DIAGNOSTIC_SIZE..].iter().all(|&b| b == BEFORE));
    assert_eq!(oce::diagnostics(checked, &report).count(), 1);
}

#[test]
fn refusals_leave_both_buffers() {
    let refused = |image: &[u8], filled: usize, report: usize| {
        let mut filled = vec![BEFORE; filled];
        let mut report = vec![BEFORE; report];
        let refusal = oce::check(image, &mut filled, &mut report).unwrap_err();
        assert!(filled.iter().chain(&report).all(|&b| b == BEFORE));
        refusal
    };
    assert_eq!(refused(&[], 0, 0), Refusal::Size);
    assert_eq!(refused(&[0; 65_536], 65_536, 0), Refusal::Size);
    assert_eq!(refused(CUT, 0, 0), Refusal::Cut { at: 27 });
    assert_eq!(
        refused(UNCONNECTED, 77, 0),
        Refusal::FilledShort { needed: 78 }
    );
    assert_eq!(
        refused(UNCONNECTED, 78, 37),
        Refusal::ReportShort { needed: 38 }
    );
    assert_eq!(refused(UNCONNECTED, 78, 37).to_string(), "refused 10 at 38");
}

/// A head and one block whose 512 ports don't exist: more diagnostics than are lent at first.
#[test]
fn a_long_report() {
    let mut image = UNCONNECTED[..23].to_vec();
    let (ports, length) = (512_u32, 10_u16 + 4 * 512);
    image.push(3);
    image.extend(length.to_le_bytes());
    image.extend([0, 0, 0, 0, 0xFF, 0xFF, 0, 1, 0, 1]);
    for port in 0..ports {
        image.extend(port.to_le_bytes());
    }
    let outcome = oce::check_image(&image).unwrap();
    assert_eq!(outcome.checked.errors, ports);
    assert_eq!(outcome.diagnostics.len(), ports as usize);
    let last = outcome.diagnostics.last().unwrap();
    assert_eq!((last.rule, last.detail, last.place), (1, 3, 255));
    assert_eq!(last.subject, Subject::Block(0));
}

#[test]
fn threads_at_once() {
    std::thread::scope(|scope| {
        for _ in 0..4 {
            scope.spawn(|| {
                for _ in 0..100 {
                    assert_eq!(oce::check_image(UNCONNECTED).unwrap().checked.errors, 2);
                    assert_eq!(oce::check_image(CUT), Err(Refusal::Cut { at: 27 }));
                }
            });
        }
    });
}

#[test]
fn bytes_that_are_no_diagnostic() {
    let mut report = [0; DIAGNOSTIC_SIZE];
    let mut filled = [0; DISPLAY_UNITS.len()];
    oce::check(DISPLAY_UNITS, &mut filled, &mut report).unwrap();
    assert!(Diagnostic::from_bytes(&report).is_some());
    for (at, value) in [(0, 1), (1, 15), (3, 2), (4, 9), (7, 4), (8, 1)] {
        let mut wrong = report;
        wrong[at] = value;
        assert_eq!(Diagnostic::from_bytes(&wrong), None, "byte {at}");
    }
}
