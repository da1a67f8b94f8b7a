//! Our root of the crate `oce-validate`; the published text has only its `rules`. It hands the
//! rules out one by one and calls them in the order of docs/FORMAT.md, which is ours.

#![allow(dead_code, unused_imports)]

use oce_diag::Diagnostic;
use oce_model::ModelGraph;

mod rules;

/// One rule of the driver: its number in docs/FORMAT.md and the published function.
pub struct Rule {
    pub number: u8,
    pub check: fn(&mut ModelGraph, &mut Vec<Diagnostic>),
}

/// The six calls, in order. The first five only read the model.
pub const RULES: [Rule; 6] = [
    Rule {
        number: 1,
        check: |model, diags| rules::check_arena_ids(model, diags),
    },
    Rule {
        number: 2,
        check: |model, diags| rules::check_boundary_outputs(model, diags),
    },
    Rule {
        number: 3,
        check: |model, diags| rules::check_single_assignment(model, diags),
    },
    Rule {
        number: 4,
        check: |model, diags| rules::check_connections(model, diags),
    },
    Rule {
        number: 5,
        check: |model, diags| rules::check_crossed_bounds(model, diags),
    },
    Rule {
        number: 6,
        check: |model, diags| rules::unify_clusters(model, diags),
    },
];

/// The driver: the six rules on one empty list. The model is filled, or left as it was.
pub fn validate(model: &mut ModelGraph) -> Vec<Diagnostic> {
    let mut diags = Vec::new();
    for rule in &RULES {
        (rule.check)(model, &mut diags);
    }
    diags
}

/// The published walk over non-finite ends and nominals. Not one of the six rules.
pub fn check_finite_bounds(model: &ModelGraph, diags: &mut Vec<Diagnostic>) {
    rules::check_finite_bounds(model, diags);
}

/// The names of the parameters that make up one time table; see [`TimeTable::check`].
pub struct TimeTable {
    /// Cells are named `BASE_row_col`.
    pub base: &'static str,
    /// Name of the parameter with the time scale; 1 where the block has none.
    pub time_scale: &'static str,
    /// Name of the parameter with the extrapolation; unset where it plays no part.
    pub extrapolation: Option<&'static str>,
}
