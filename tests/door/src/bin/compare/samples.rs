//! The samples, read, written and read again.

use std::fs;

use galebonnet::door;
use galebonnet_tests::generate::TableCase;

use super::blocks::{self, LONG};
use super::held::Held;
use super::tables;

/// Compares every piece of every sample, and what is written of the accepted blocks.
pub fn compared(held: &mut Held) {
    let samples = fs::read_dir("samples").expect("compare is run from the project's root");
    for sample in samples {
        let sample = sample.expect("a sample").path();
        if sample.extension().is_some_and(|extension| extension == "jcs") {
            pieces(held, &fs::read(&sample).expect("a sample"));
        }
    }
}

fn pieces(held: &mut Held, file: &[u8]) {
    let mut place = 0;
    while let (1 | 2, end) = door::walk(file, place) {
        let block = &file[place..end];
        blocks::compared(held, "sample", block, LONG);
        let mut table = vec![0; LONG.0];
        if door::read(block, &mut table, &mut vec![0.0; LONG.1]) == (0, 0) {
            tables::compared(held, &TableCase { table, texts: block.to_vec(), room: 32_768 });
        }
        place = end;
    }
}
