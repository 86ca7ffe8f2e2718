//! The pieces of one file, each read, judged and, where it is asked for, written.

use std::io::Write;
use std::process::exit;

use galebonnet::door;

use crate::report::{Judged, Piece, Report};

/// Numbers of a structure table, floats of a position table and of one position, and bytes of a block
/// at most.
const TABLE: usize = 3856;
const POSITIONS: usize = 1024;
const POSITION: usize = 4;
const BLOCK: usize = 32_768;

/// Places in the table.
const ATOM_COUNT: usize = 0;
const BOND_COUNT: usize = 1;
const HANDED: usize = 13;

/// Every piece of one file.
pub fn all(file: &str, bytes: &[u8], report: &mut Report, mut forms: Option<&mut (dyn Write + 'static)>) {
    report.seen.bytes += bytes.len();
    let (mut place, mut line) = (0, 1);
    loop {
        let (kind, end) = door::walk(bytes, place);
        if kind == 0 {
            return;
        }
        if kind > 2 {
            return report.file(file, kind);
        }
        let piece = Piece { file, bytes: &bytes[place..end], start: place, line };
        match kind {
            1 => report.block(&piece, &judged(piece.bytes, forms.as_deref_mut())),
            _ => report.stray(&piece),
        }
        line += piece.bytes.iter().filter(|byte| **byte == b'\n').count();
        place = end;
    }
}

/// A block's judgement; an accepted one is written where forms are asked for.
fn judged(block: &[u8], forms: Option<&mut (dyn Write + 'static)>) -> Judged {
    let (mut table, mut floats) = (vec![0; TABLE], vec![0.0; POSITIONS]);
    let (number, place) = door::read(block, &mut table, &mut floats);
    let positions = floats.chunks_exact(POSITION).filter(|position| position[0] == 1.0).count();
    let (atoms, bonds, handed) = (table[ATOM_COUNT], table[BOND_COUNT], table[HANDED]);
    let judged = Judged { number, place, atoms, bonds, positions, handed };
    let (0, Some(forms)) = (number, forms) else { return judged };
    let mut buffer = vec![0; BLOCK];
    let (number, count) = door::write(&table, block, &mut buffer);
    if forms.write_all(&buffer[..count]).is_err() {
        exit(2);
    }
    Judged { number, ..judged }
}
