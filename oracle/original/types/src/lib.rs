//! Stand-ins for the crate that holds `model.rs`. The original's own `canonical`, `digest` and `reducer` can't be had.

pub mod canonical;
pub mod digest;
pub mod model;
pub mod reducer;
pub mod script;
