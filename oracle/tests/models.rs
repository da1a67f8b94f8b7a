//! The printed example and the thirteen models of docs/FORMAT.md, with the results it gives.

use oracle::answer::{Answer, Report, answer};
use oracle::format::*;
use oracle::models::{example, models};
use oracle::printed::{diagnostic_line, print};

fn report(name: &str) -> Report {
    let models = models();
    let model = models.iter().find(|m| m.name == name).expect("a model");
    match answer(&model.image) {
        Answer::Accepted(report) => report,
        Answer::Refused(refusal) => panic!("{name}: {refusal:?}"),
    }
}

fn lines(report: &Report) -> Vec<String> {
    report.diagnostics.iter().map(diagnostic_line).collect()
}

#[test]
fn printed_example() {
    let image = example();
    assert_eq!(image.len(), 78);
    let text = print(&answer(&image));
    let own: Vec<&str> = text
        .lines()
        .filter(|line| !line.starts_with('\t'))
        .collect();
    assert_eq!(
        own,
        [
            "errors 2 warnings 0",
            "error MalformedDocument 1.5 0 u",
            "error SingleAssignment 3.1 0 u",
        ]
    );
}

#[test]
fn a_is_the_head_alone() {
    assert_eq!(models()[1].image.len(), MIN_IMAGE);
}

#[test]
fn results_of_the_thirteen_models() {
    let expected: [(&str, &[&str]); 13] = [
        ("a", &[]),
        ("b", &[]),
        ("c", &["error UnitQuantityMismatch 6.1 0 connector#0"]),
        ("d", &["error BoundMismatch 6.3 0 connector#0"]),
        ("e", &[]),
        ("f", &["error CrossedBounds 6.8 0 connector#0"]),
        ("g", &["error SingleAssignment 3.2 2 connector#2"]),
        (
            "h",
            &[
                "error SingleAssignment 3.2 2 connector#1",
                "error MalformedDocument 4.1 1 -",
            ],
        ),
        ("i", &[]),
        ("j", &["error CrossedBounds 5.1 0 connector#0"]),
        ("k", &[]),
        // The Rust doesn't tell 5.4's place, the number of members; FORMAT.md gives 2.
        ("l", &["error CrossedBounds 5.4 ? u"]),
        ("m", &["warning DisplayUnitDivergence 6.7 0 connector#0"]),
    ];
    for (name, want) in expected {
        assert_eq!(lines(&report(name)), want, "model {name}");
    }
}

#[test]
fn fillings_of_the_thirteen_models() {
    for model in models() {
        let Answer::Accepted(report) = answer(&model.image) else {
            panic!("{} is refused", model.name)
        };
        let filled = &report.filled;
        if ["b", "m"].contains(&model.name) {
            assert_eq!(filled.len(), 1, "model {}", model.name);
            let slot = filled[0];
            assert_eq!((slot.tag, slot.index), (TAG_CONNECTOR, 1));
            let mut want = slot.before;
            want.set |= SET_UNIT;
            want.unit = 0;
            assert_eq!(slot.after, want, "model {}", model.name);
            assert_eq!(slot.before.set & SET_UNIT, 0);
        } else {
            assert!(filled.is_empty(), "model {}", model.name);
        }
    }
}
