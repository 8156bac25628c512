//! Calls to compare answers on: Joint A, directed calls, full sheets, random histories. All are reproducible from a seed.

pub mod directed;
pub mod fields;
pub mod full;
mod history;
pub mod joint;
mod records;
pub mod rng;
mod sheets;

pub use history::Generator;
