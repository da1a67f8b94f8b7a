//! The oracle: the published Rust rules, byte for byte unchanged, behind a reader of model images.

pub mod answer;
pub mod bench;
pub mod coverage;
pub mod format;
pub mod generator;
pub mod image;
pub mod models;
pub mod places;
pub mod printed;
pub mod random;
pub mod reader;
pub mod stored;
pub mod tool;

pub use oce_validate::{TimeTable, check_finite_bounds, validate};
