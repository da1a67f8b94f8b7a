//! Stub: `params_finite` isn't in the published text. Rules 1 to 6 don't reach it. Being a part
//! of `rules`, it is also the place from which `check_time_table_matrix` can be handed out.

use oce_blocks::TimeTableValues;
use oce_diag::Diagnostic;
use oce_model::BlockInstance;

use super::params_flattened::{TimeTableRule, check_time_table_matrix};

/// No parameter is judged here.
pub(super) fn check_finite_params(_blk: &BlockInstance, _diags: &mut Vec<Diagnostic>) -> bool {
    false
}

impl crate::TimeTable {
    /// `check_time_table_matrix` over the parameters of `blk`, for a table of Real values.
    pub fn check(&self, blk: &BlockInstance, diags: &mut Vec<Diagnostic>) {
        let rule = TimeTableRule {
            base: self.base,
            values: TimeTableValues::Real,
            time_scale: self.time_scale,
            period: None,
            extrapolation: self.extrapolation,
        };
        check_time_table_matrix(blk, diags, rule);
    }
}
