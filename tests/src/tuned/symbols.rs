//! Symbols, looked up in a table of 26 times 27 bytes.

use crate::independent::elements::SYMBOLS;

/// What the table gives for `D` and `T`, which are hydrogen with a mass.
pub const DEUTERIUM: u8 = 104;
pub const TRITIUM: u8 = 105;

/// The element by its upper-case letter and its lower-case one (column 0 where there is none).
const ELEMENTS: [[u8; 27]; 26] = {
    let mut elements = [[0; 27]; 26];
    let mut index = 0;
    while index < SYMBOLS.len() {
        let letters = SYMBOLS[index].as_bytes();
        let lower = if letters.len() == 2 { (letters[1] - b'a' + 1) as usize } else { 0 };
        elements[(letters[0] - b'A') as usize][lower] = index as u8 + 1;
        index += 1;
    }
    elements[(b'D' - b'A') as usize][0] = DEUTERIUM;
    elements[(b'T' - b'A') as usize][0] = TRITIUM;
    elements
};

/// The table's number for an upper-case letter and a column, 0 where it is no symbol.
#[inline]
pub fn element(upper: u8, lower: u8) -> u8 {
    ELEMENTS[usize::from(upper - b'A')][usize::from(lower)]
}

/// The column of a lower-case letter; 0 for any other byte.
#[inline]
pub fn column(byte: u8) -> u8 {
    if byte.is_ascii_lowercase() {
        byte - b'a' + 1
    } else {
        0
    }
}

/// Element and mass of the table's number and the mass before the symbol; none where unknown.
pub fn nuclide(number: u8, mass: Option<i32>) -> Option<(i32, i32)> {
    match (number, mass) {
        (0, _) | (DEUTERIUM | TRITIUM, Some(_)) => None,
        (DEUTERIUM, None) => Some((1, 2)),
        (TRITIUM, None) => Some((1, 3)),
        (_, mass) => Some((i32::from(number), mass.unwrap_or(0))),
    }
}
