//! The proved library as Rust sees it, and the texts of its refusals.

pub mod door;
pub mod refusals;
