//! The static library beside the oracle, on generated images.
//!
//! The oracle is the only reference: nothing here knows a rule. `fields` walks an image's fields to
//! find texts and attributes in it, and is used for accepted images alone.

pub mod batches;
pub mod compare;
pub mod fields;
pub mod heavy;
pub mod lent;
pub mod sums;
