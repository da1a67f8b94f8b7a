//! Stub of the crate `oce-blocks`, which isn't in the published text: the names that the rules
//! mention, and a registry that knows no class. Rules 1 to 6 don't reach it.

use oce_model::{ParamTable, ValueType};

/// The most cells of a flattened table. The published text doesn't give the number; 4,096 is ours.
pub const MAX_RESOLVED_PORT_WIDTH: usize = 4096;

/// The kind of a port in a class's signature.
#[derive(Clone, Copy)]
pub enum PortKind {
    Real,
    Integer,
    Boolean,
}

/// What the output columns of a time table hold.
#[derive(Clone, Copy)]
pub enum TimeTableValues {
    Real,
    Integer,
    Boolean,
}

/// The ports of a class.
pub struct Signature {
    pub inputs: Vec<PortKind>,
    pub outputs: Vec<PortKind>,
}

/// A block built to ask its signature.
pub struct Probe;

impl Probe {
    pub fn resolved_signature(&self) -> Signature {
        Signature {
            inputs: Vec::new(),
            outputs: Vec::new(),
        }
    }
}

/// A class of the registry.
pub struct Entry {
    pub make: fn(&ParamTable) -> Probe,
}

impl Entry {
    pub fn param_rules(&self) -> &'static [ParamRule] {
        &[]
    }
}

/// Find a class by its path: none is known.
pub fn lookup(_class_iri: &str) -> Option<&'static Entry> {
    None
}

/// The parameter rules that `params.rs` tells apart.
#[derive(Clone, Copy)]
#[non_exhaustive]
pub enum ParamRule {
    Required {
        name: &'static str,
        kind: ValueType,
    },
    Structural {
        name: &'static str,
    },
    StructuralArrayElements {
        base: &'static str,
    },
    Boolean {
        name: &'static str,
    },
    Real {
        name: &'static str,
    },
    RealFinite {
        name: &'static str,
    },
    RealGreaterThan {
        name: &'static str,
        min: f64,
    },
    RealFiniteGreaterThan {
        name: &'static str,
        min: f64,
    },
    RealGreaterOrEqual {
        name: &'static str,
        min: f64,
    },
    RealLessOrEqualConstant {
        name: &'static str,
        max: f64,
    },
    IntegerGreaterOrEqual {
        name: &'static str,
        min: i64,
    },
    IntegerLessOrEqualConstant {
        name: &'static str,
        max: i64,
    },
    IntegerArrayElements {
        base: &'static str,
        len: &'static str,
    },
    IntegerArrayElementsInRange {
        base: &'static str,
        len: &'static str,
        len_default: i64,
        min: i64,
        max: &'static str,
        max_default: i64,
        default_to_index: bool,
    },
    RealArrayElements {
        base: &'static str,
        len: &'static str,
    },
    RealMatrixElements {
        base: &'static str,
        rows: &'static str,
        default_rows: i64,
        cols: &'static str,
        default_cols: i64,
    },
    TimeTableMatrix {
        base: &'static str,
        values: TimeTableValues,
        time_scale: &'static str,
        period: Option<&'static str>,
        extrapolation: Option<&'static str>,
    },
    TimeTableOffset {
        base: &'static str,
        table: &'static str,
    },
    BooleanArrayElements {
        base: &'static str,
        len: &'static str,
    },
    BooleanArrayTrueCountEquals {
        base: &'static str,
        len: &'static str,
        count: &'static str,
        default: bool,
    },
    EnumMembers {
        name: &'static str,
        members: &'static [&'static str],
    },
    RealTimesIntegerInclusiveRange {
        real: &'static str,
        integer: &'static str,
        min: f64,
        max: f64,
    },
    IntegerProductLessOrEqualConstant {
        left: &'static str,
        right: &'static str,
        max: i64,
    },
    RealLessOrEqual {
        lower: &'static str,
        upper: &'static str,
    },
    RealLessOrEqualWarning {
        lower: &'static str,
        upper: &'static str,
    },
    RealGreaterOrEqualScaledWarning {
        left: &'static str,
        right: &'static str,
        factor: f64,
    },
    RealEqualWarning {
        left: &'static str,
        right: &'static str,
    },
}
