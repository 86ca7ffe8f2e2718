//! Fields, numbers and the shapes of rows: document 01, "Rows". A shape knows no range, no order
//! and no list; each function answers the row's values, or none where the shape is wrong (9).

use super::lines::is_blank;

/// "Fields are parted by blanks."
pub fn fields(row: &[u8]) -> Vec<&[u8]> {
    row.split(|&byte| is_blank(byte)).filter(|field| !field.is_empty()).collect()
}

/// "An unsigned number is 1 to 6 digits."
pub fn unsigned(field: &[u8]) -> Option<i32> {
    digits(field, 6)
}

/// "A signed one may have `+` or `-` before them."
pub fn signed(field: &[u8]) -> Option<i32> {
    match field {
        [b'+', rest @ ..] => unsigned(rest),
        [b'-', rest @ ..] => unsigned(rest).map(|number| -number),
        _ => unsigned(field),
    }
}

/// The value of 1 to `most` digits and nothing else.
pub fn digits(field: &[u8], most: usize) -> Option<i32> {
    if field.is_empty() || field.len() > most || !field.iter().all(u8::is_ascii_digit) {
        return None;
    }
    Some(field.iter().fold(0, |number, &digit| 10 * number + i32::from(digit - b'0')))
}

/// A symbol as it stands: the digits after `^`, if any, and its letters.
#[derive(Clone, Copy, Debug, PartialEq)]
pub struct Symbol<'a> {
    pub mass: Option<i32>,
    pub letters: &'a [u8],
}

/// "A symbol is an upper-case letter and at most one lower-case letter, before it optionally `^`
/// and 1 to 3 digits."
pub fn symbol(field: &[u8]) -> Option<Symbol<'_>> {
    let upper = field.iter().position(u8::is_ascii_uppercase)?;
    let (before, letters) = field.split_at(upper);
    let mass = match before {
        [] => None,
        [b'^', mass @ ..] => Some(digits(mass, 3)?),
        _ => return None,
    };
    match letters {
        [_] => Some(Symbol { mass, letters }),
        [_, lower] if lower.is_ascii_lowercase() => Some(Symbol { mass, letters }),
        _ => None,
    }
}

/// ATOMLIST: "number, symbol, optional hydrogens" (absent means 0).
pub fn atom<'a>(fields: &[&'a [u8]]) -> Option<(i32, Symbol<'a>, i32)> {
    match fields {
        [number, name] => Some((unsigned(number)?, symbol(name)?, 0)),
        [number, name, hydrogens] => Some((unsigned(number)?, symbol(name)?, unsigned(hydrogens)?)),
        _ => None,
    }
}

/// BONDLIST: "two atoms and S, D, T, Q or A"; the kind is 1 to 5.
pub fn bond(fields: &[&[u8]]) -> Option<(i32, i32, i32)> {
    let [one, other, kind] = fields else { return None };
    Some((unsigned(one)?, unsigned(other)?, letter(kind, b"SDTQA")? + 1))
}

/// CHARGE: "signed value, then no or more atoms".
pub fn charge(fields: &[&[u8]]) -> Option<(i32, Vec<i32>)> {
    let (value, atoms) = fields.split_first()?;
    Some((signed(value)?, every_atom(atoms)?))
}

/// RADICAL: "unsigned, then the same".
pub fn radical(fields: &[&[u8]]) -> Option<(i32, Vec<i32>)> {
    let (value, atoms) = fields.split_first()?;
    Some((unsigned(value)?, every_atom(atoms)?))
}

fn every_atom(fields: &[&[u8]]) -> Option<Vec<i32>> {
    fields.iter().map(|field| unsigned(field)).collect()
}

/// STEREOCENTER: "atom, P or M, optional group"; the descriptor is 1 P or 2 M.
pub fn centre(fields: &[&[u8]]) -> Option<(i32, i32, i32)> {
    match fields {
        [atom, descriptor] => Some((unsigned(atom)?, letter(descriptor, b"PM")? + 1, 0)),
        [atom, descriptor, mark] => Some((unsigned(atom)?, letter(descriptor, b"PM")? + 1, group(mark)?)),
        _ => None,
    }
}

/// STEREOPAIR: "two atoms, P, M or 0, optional group"; the descriptor is 0, 1 P or 2 M.
pub fn pair(fields: &[&[u8]]) -> Option<(i32, i32, i32, i32)> {
    let (ends, rest) = fields.split_at_checked(2)?;
    let (one, other) = (unsigned(ends[0])?, unsigned(ends[1])?);
    match rest {
        [descriptor] => Some((one, other, letter(descriptor, b"0PM")?, 0)),
        [descriptor, mark] => Some((one, other, letter(descriptor, b"0PM")?, group(mark)?)),
        _ => None,
    }
}

/// "Group `0`, A to Z or a to z": the group byte, 0 for `0`.
fn group(field: &[u8]) -> Option<i32> {
    match field {
        [b'0'] => Some(0),
        [byte] if byte.is_ascii_alphabetic() => Some(i32::from(*byte)),
        _ => None,
    }
}

/// Which one of some single bytes a field is, from 0.
fn letter(field: &[u8], among: &[u8]) -> Option<i32> {
    let [byte] = field else { return None };
    among.iter().position(|one| one == byte).map(|position| position as i32)
}
