//! A reader of one block written by hand for speed alone and without a proof: what the proved one is
//! measured against (docs/BENCHMARK.md). It shares the independent reader's list of symbols and
//! nothing else, and answers as that one does (tests/tuned.rs).
//!
//! Its choices: rows of ATOMLIST, BONDLIST and XYZ are tried first at the line's first byte by a quick
//! leaf; rows of two atoms are packed into one number; a row is compared with the last one and only
//! then searched for; a label is read once into a number of five bits a letter, and only one that is
//! longer than such a number holds is compared letter by letter; a symbol is looked up in a table; the
//! formula is held in one count for each element, and read again only where a mass occurs. The lists
//! are kept packed in the lent table itself and spread out at acceptance.

mod coordinates;
mod formula;
mod lines;
mod lists;
mod packed;
mod publish;
mod quick;
mod reading;
mod rows;
mod symbols;

use reading::Reading;

const NUMBERS: usize = 3856;
const FLOATS: usize = 1024;
const LONGEST_BLOCK: usize = 32_768;

/// Reads a block into a structure table and a position table: the refusal's number and its place, 0
/// and 0 where it is accepted.
pub fn read(block: &[u8], table: &mut [i32], positions: &mut [f64]) -> (u32, usize) {
    let lent = (table.first_chunk_mut::<NUMBERS>(), positions.first_chunk_mut::<FLOATS>());
    let (Some(table), Some(positions)) = lent else { return (1, 0) };
    table.fill(0);
    positions.fill(0.0);
    if block.len() > LONGEST_BLOCK {
        return (2, 0);
    }
    match Reading::new(block, table, positions).block() {
        Ok(()) => (0, 0),
        Err(refusal) => {
            table.fill(0);
            positions.fill(0.0);
            refusal
        }
    }
}
