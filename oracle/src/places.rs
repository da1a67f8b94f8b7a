//! Places, which the Rust's diagnostics don't carry. Some messages name them. The others are asked
//! of the Rust itself: the same rule is called on a copy of the model whose records bear their own
//! index as iri, and a connection's number is found by calling rule 4 on one connection at a time.

use std::sync::Arc;

use oce_diag::Diagnostic;
use oce_model::ModelGraph;
use oce_validate::Rule;

use crate::answer::{COMBINED, detail};

/// The copy with marks for iris. Marks don't steer rules 1 to 4, 5.1 to 5.3 and 6; 5.4 groups by
/// iri and stays silent on it, at the end of rule 5's diagnostics.
pub struct Marked {
    model: ModelGraph,
}

impl Marked {
    pub fn new(model: &ModelGraph) -> Self {
        let mut model = model.clone();
        for (index, block) in model.blocks.iter_mut().enumerate() {
            block.instance_iri = Some(mark('b', index));
        }
        for (index, connector) in model.connectors.iter_mut().enumerate() {
            connector.iri = Some(mark('c', index));
        }
        for (index, input) in model.boundary_inputs.iter_mut().enumerate() {
            input.iri = mark('i', index);
        }
        for (index, output) in model.boundary_outputs.iter_mut().enumerate() {
            output.iri = mark('o', index);
        }
        Self { model }
    }

    /// The places of the diagnostics `new`, which `rule` put behind those of `before`.
    pub fn places(
        &mut self,
        rule: &Rule,
        mut before: Vec<Diagnostic>,
        new: &[Diagnostic],
    ) -> Vec<Option<u32>> {
        let had = before.len();
        (rule.check)(&mut self.model, &mut before);
        let marked = &before[had..];
        let of_connections = if rule.number == 4 {
            self.connections(rule, new.len())
        } else {
            Vec::new()
        };
        new.iter()
            .enumerate()
            .map(
                |(index, d)| match (rule.number, detail(rule.number, &d.message)) {
                    (1, 2 | 3) => number_behind(&d.message, " port "),
                    (3, 2) => number_behind(&d.message, "in-degree "),
                    (4, _) => of_connections.get(index).copied(),
                    COMBINED => None,
                    _ => marked
                        .get(index)
                        .filter(|m| m.message == d.message)
                        .and_then(index_of),
                },
            )
            .collect()
    }

    /// For each diagnostic of rule 4, the connection that gives it.
    fn connections(&mut self, rule: &Rule, expected: usize) -> Vec<u32> {
        if expected == 0 {
            return Vec::new();
        }
        let all = std::mem::take(&mut self.model.connections);
        let mut places = Vec::with_capacity(expected);
        for (index, connection) in all.iter().enumerate() {
            self.model.connections = vec![*connection];
            let mut diags = Vec::new();
            (rule.check)(&mut self.model, &mut diags);
            places.extend(diags.iter().map(|_| index as u32));
        }
        self.model.connections = all;
        places
    }
}

fn mark(kind: char, index: usize) -> Arc<str> {
    Arc::from(format!("{kind}{index}"))
}

fn index_of(marked: &Diagnostic) -> Option<u32> {
    marked.subject.as_deref()?.get(1..)?.parse().ok()
}

fn number_behind(message: &str, before: &str) -> Option<u32> {
    let (_, rest) = message.split_once(before)?;
    let digits = rest
        .find(|c: char| !c.is_ascii_digit())
        .unwrap_or(rest.len());
    rest[..digits].parse().ok()
}
