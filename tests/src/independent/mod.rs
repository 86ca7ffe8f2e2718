//! The independent reader: document 01 and requests L1, L2 and L4 read line by line, every broken rule of
//! a line collected, the least of them answered. Nothing here is shared with the definitions or the proved
//! code.

pub mod cases;
pub mod coordinates;
pub mod elements;
pub mod formula;
pub mod groups;
pub mod lines;
pub mod lists;
pub mod reading;
pub mod rows;
pub mod table;
pub mod walking;
pub mod writing;

pub use cases::case_lines;
pub use coordinates::{position, Position};
pub use reading::{check, read, read_table, Answer};
pub use walking::{name, pieces, walk, walk_lines, Walked};
pub use writing::{write, Written};
