//! The three records of coordinates. The rows' whole values stand as floats in the lent table, and are
//! scaled there at acceptance: up to 10^15 a float holds every whole number, so nothing is rounded
//! before the one division.

use super::lines::without_comment;
use super::reading::{Reading, Refused};
use super::rows::{self, Fields};

/// Floats of an atom: 1, X, Y, Z.
const WIDTH: usize = 4;

/// What the records gave beside the rows.
#[derive(Default)]
pub struct Coordinates {
    most: i32,
    /// The largest size of a row's value.
    largest: i32,
    digits: f64,
    power: f64,
    /// The last row's atom, 0 none.
    last: usize,
}

impl Coordinates {
    pub fn pass_the_most(&self) -> bool {
        self.largest > self.most
    }
}

impl Reading<'_> {
    pub(super) fn most(&mut self, value: &[u8]) -> Refused {
        self.coordinates.most = rows::unsigned(only(value)?).ok_or(9u32)?;
        Ok(())
    }

    /// 1 to 9 digits with at most one point.
    pub(super) fn factor(&mut self, value: &[u8]) -> Refused {
        let (mut digits, mut count, mut power) = (0u32, 0, None);
        for byte in only(value)? {
            match byte {
                b'0'..=b'9' if count < 9 => {
                    digits = 10 * digits + u32::from(byte - b'0');
                    count += 1;
                    power = power.map(|power| 10 * power);
                }
                b'.' if power.is_none() => power = Some(1u32),
                _ => return Err(9),
            }
        }
        match (count, digits) {
            (0, _) => Err(9),
            (_, 0) => Err(10),
            _ => {
                (self.coordinates.digits, self.coordinates.power) =
                    (digits.into(), power.unwrap_or(1).into());
                Ok(())
            }
        }
    }

    #[inline]
    pub(super) fn coordinates(&mut self, atom: usize, values: [i32; 3]) -> Refused {
        if atom == 0 || atom > self.atoms {
            return Err(11);
        }
        if atom <= self.coordinates.last {
            return Err(13);
        }
        let from = WIDTH * (atom - 1);
        let [x, y, z] = values;
        self.positions[from..from + WIDTH].copy_from_slice(&[1.0, x.into(), y.into(), z.into()]);
        self.coordinates.largest = self.coordinates.largest.max(x.abs()).max(y.abs()).max(z.abs());
        self.coordinates.last = atom;
        Ok(())
    }

    pub(super) fn coordinate_row(&mut self, row: &[u8]) -> Refused {
        let mut fields = Fields::new(row);
        let mut number = |read: fn(&[u8]) -> Option<i32>| read(fields.next()?);
        let atom = number(rows::unsigned).ok_or(9u32)?;
        let mut value = || number(rows::signed).ok_or(9u32);
        let values = [value()?, value()?, value()?];
        if fields.next().is_some() {
            return Err(9);
        }
        self.coordinates(atom as usize, values)
    }

    /// Whole values become Angstrom; the floats of an atom that is not given stay 0.
    pub(super) fn scale(&mut self) {
        let Coordinates { digits, power, last, .. } = self.coordinates;
        for position in self.positions[..WIDTH * last].chunks_exact_mut(WIDTH) {
            for value in &mut position[1..] {
                *value = *value * digits / power;
            }
        }
    }
}

/// The one field of a label line's value.
fn only(value: &[u8]) -> Result<&[u8], u32> {
    let mut fields = Fields::new(without_comment(value));
    match (fields.next(), fields.next()) {
        (Some(field), None) => Ok(field),
        _ => Err(9),
    }
}
