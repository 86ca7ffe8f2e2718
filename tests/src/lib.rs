//! The independent reader of JCAMP-CS 3.7 blocks, and the generator of its inputs.
//!
//! `independent` states document 01 a second time, by its words alone and as directly as can be;
//! the proved reader, writer and walk are compared with it. `generate` makes the inputs.

pub mod generate;
pub mod independent;
pub mod tuned;
