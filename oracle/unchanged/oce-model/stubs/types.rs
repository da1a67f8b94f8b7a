//! Stub: the registry of enumeration types isn't in the published text. Only the names that
//! `lib.rs` re-exports are here; every lookup finds nothing. Rules 1 to 6 don't reach it.

use super::EnumClassId;

/// An enumeration class and its literals.
pub struct EnumDescriptor {
    /// Literals in order of their ordinals.
    pub members: &'static [&'static str],
}

/// `CDL.Types.SimpleController`.
pub enum SimpleController {}

/// `CDL.Types.ZeroTime`.
pub enum ZeroTime {}

pub fn enum_class_id(_path: &str) -> Option<EnumClassId> {
    None
}

pub fn enum_descriptor(_class: EnumClassId) -> Option<&'static EnumDescriptor> {
    None
}

pub fn enum_descriptor_by_path(_path: &str) -> Option<&'static EnumDescriptor> {
    None
}

pub fn enum_member_ordinal(_class: EnumClassId, _member: &str) -> Option<u32> {
    None
}

pub fn g36_enum_class_id(_path: &str) -> Option<EnumClassId> {
    None
}

pub fn g36_enum_literals(_path: &str) -> Option<&'static [&'static str]> {
    None
}

pub fn g36_integer_constant(_path: &str) -> Option<i64> {
    None
}

pub fn g36_integer_constant_in_package(_package: &str, _name: &str) -> Option<i64> {
    None
}

pub fn is_g36_integer_constant_package(_path: &str) -> bool {
    false
}

pub fn is_g36_type_path(_path: &str) -> bool {
    false
}
