//! Fields, numbers and the shapes of rows in any spelling; a wrong shape is none.

use super::lines::is_blank;
use super::quick::kind;
use super::symbols;

/// The fields of a row, one after the other.
pub struct Fields<'a> {
    rest: &'a [u8],
}

impl<'a> Fields<'a> {
    pub fn new(rest: &'a [u8]) -> Self {
        Fields { rest }
    }
}

impl<'a> Iterator for Fields<'a> {
    type Item = &'a [u8];

    #[inline]
    fn next(&mut self) -> Option<&'a [u8]> {
        let start = self.rest.iter().position(|byte| !is_blank(*byte))?;
        let from = &self.rest[start..];
        let length = from.iter().position(|byte| is_blank(*byte)).unwrap_or(from.len());
        self.rest = &from[length..];
        Some(&from[..length])
    }
}

/// 1 to `most` digits and nothing else.
#[inline]
pub fn digits(field: &[u8], most: usize) -> Option<i32> {
    if field.is_empty() || field.len() > most {
        return None;
    }
    let mut value = 0;
    for byte in field {
        let digit = byte.wrapping_sub(b'0');
        if digit > 9 {
            return None;
        }
        value = 10 * value + i32::from(digit);
    }
    Some(value)
}

pub fn unsigned(field: &[u8]) -> Option<i32> {
    digits(field, 6)
}

pub fn signed(field: &[u8]) -> Option<i32> {
    match field {
        [b'+', rest @ ..] => unsigned(rest),
        [b'-', rest @ ..] => unsigned(rest).map(|value| -value),
        _ => unsigned(field),
    }
}

/// A symbol as it stands: the table's number for its letters, and its mass if one is written.
pub fn symbol(field: &[u8]) -> Option<(u8, Option<i32>)> {
    let (mass, letters) = match field {
        [b'^', rest @ ..] => {
            let length = rest.iter().position(|byte| !byte.is_ascii_digit())?;
            (Some(digits(&rest[..length], 3)?), &rest[length..])
        }
        _ => (None, field),
    };
    match letters {
        [upper @ b'A'..=b'Z'] => Some((symbols::element(*upper, 0), mass)),
        [upper @ b'A'..=b'Z', lower @ b'a'..=b'z'] => {
            Some((symbols::element(*upper, symbols::column(*lower)), mass))
        }
        _ => None,
    }
}

/// ATOMLIST: number, symbol, mass, hydrogens.
pub fn atom(row: &[u8]) -> Option<(i32, u8, Option<i32>, i32)> {
    let mut fields = Fields::new(row);
    let number = unsigned(fields.next()?)?;
    let (element, mass) = symbol(fields.next()?)?;
    let hydrogens = match fields.next() {
        Some(field) => unsigned(field)?,
        None => 0,
    };
    fields.next().is_none().then_some((number, element, mass, hydrogens))
}

/// BONDLIST: two atoms and a kind.
pub fn bond(row: &[u8]) -> Option<(i32, i32, i32)> {
    let mut fields = Fields::new(row);
    let one = unsigned(fields.next()?)?;
    let other = unsigned(fields.next()?)?;
    let [letter] = fields.next()? else { return None };
    let kind = kind(*letter)?;
    fields.next().is_none().then_some((one, other, kind))
}

/// STEREOCENTER: an atom, a descriptor, a group.
pub fn centre(row: &[u8]) -> Option<(i32, i32, i32)> {
    let mut fields = Fields::new(row);
    let atom = unsigned(fields.next()?)?;
    let descriptor = descriptor(fields.next()?).filter(|descriptor| *descriptor > 0)?;
    let group = group(&mut fields)?;
    Some((atom, descriptor, group))
}

/// STEREOPAIR: two atoms, a descriptor, a group.
pub fn pair(row: &[u8]) -> Option<(i32, i32, i32, i32)> {
    let mut fields = Fields::new(row);
    let one = unsigned(fields.next()?)?;
    let other = unsigned(fields.next()?)?;
    let descriptor = descriptor(fields.next()?)?;
    let group = group(&mut fields)?;
    Some((one, other, descriptor, group))
}

fn descriptor(field: &[u8]) -> Option<i32> {
    match field {
        b"0" => Some(0),
        b"P" => Some(1),
        b"M" => Some(2),
        _ => None,
    }
}

/// The group's byte, 0 where it is absent or `0`; the row ends behind it.
fn group(fields: &mut Fields) -> Option<i32> {
    let group = match fields.next() {
        None | Some(b"0") => 0,
        Some([byte]) if byte.is_ascii_alphabetic() => i32::from(*byte),
        Some(_) => return None,
    };
    fields.next().is_none().then_some(group)
}
