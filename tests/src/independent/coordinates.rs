//! Coordinates in Angstrom: request L2 with the decided points 2.1 to 2.13. A coordinate is found
//! here over whole numbers alone, digit by digit of its float; no float is divided.

use super::lists::{is_listed, sound, Broken};
use super::rows;
use super::table::{Atom, ATOMS};

/// "1,024 64-bit floats (per atom 1 if given, X, Y, Z; else four 0)."
pub const FLOATS: usize = 1024;
/// Floats of one atom.
pub const WIDTH: usize = FLOATS / ATOMS;

/// "1 to 9 digits with at most one point, anywhere": the digits as one number, and how many of them
/// stand behind the point.
#[derive(Clone, Copy, Debug, PartialEq, Eq)]
pub struct Factor {
    pub digits: i64,
    pub decimals: u32,
}

/// A row of XYZ: an atom and its three whole values, unscaled.
#[derive(Clone, Copy, Debug, PartialEq, Eq)]
pub struct CoordinateRow {
    pub atom: i32,
    pub values: [i32; 3],
}

/// What the three records gave: MAX_XYZ, XYZ_FACTOR and the rows of XYZ.
#[derive(Clone, Debug, Default, PartialEq)]
pub struct Coordinates {
    pub most: Option<i32>,
    pub factor: Option<Factor>,
    pub rows: Vec<CoordinateRow>,
}

/// "An atom's position is either three coordinates in Angstrom or not given."
#[derive(Clone, Copy, Debug, PartialEq)]
pub enum Position {
    At(f64, f64, f64),
    NotGiven,
}

/// MAX_XYZ: one unsigned number on the label line, 0 too; nothing else bounds it.
pub fn most(fields: &[&[u8]]) -> Result<i32, Broken> {
    match fields {
        [field] => rows::unsigned(field).ok_or(vec![9]),
        _ => Err(vec![9]),
    }
}

/// XYZ_FACTOR: one field on the label line; "a zero factor as 10".
pub fn factor(fields: &[&[u8]]) -> Result<Factor, Broken> {
    let [field] = fields else { return Err(vec![9]) };
    let factor = factor_of(field).ok_or(vec![9])?;
    sound(factor, if factor.digits == 0 { vec![10] } else { vec![] })
}

fn factor_of(field: &[u8]) -> Option<Factor> {
    let point = field.iter().position(|&byte| byte == b'.');
    let (before, behind) = match point {
        Some(point) => (&field[..point], &field[point + 1..]),
        None => (field, &[][..]),
    };
    let digits = rows::digits(&[before, behind].concat(), 9)?;
    Some(Factor { digits: i64::from(digits), decimals: behind.len() as u32 })
}

/// XYZ: "Rows are an atom and three signed numbers of 1 to 6 digits, atoms ascending". The values
/// have no range before END. No list is full here: listed atoms that ascend are 256 at most.
pub fn row(fields: &[&[u8]], atoms: &[Atom], before: &[CoordinateRow]) -> Result<CoordinateRow, Broken> {
    let Some(row) = row_of(fields) else { return Err(vec![9]) };
    let mut broken = Vec::new();
    if !is_listed(row.atom, atoms) {
        broken.push(11);
    }
    if before.iter().any(|old| old.atom >= row.atom) {
        broken.push(13);
    }
    sound(row, broken)
}

fn row_of(fields: &[&[u8]]) -> Option<CoordinateRow> {
    let [atom, x, y, z] = fields else { return None };
    let values = [rows::signed(x)?, rows::signed(y)?, rows::signed(z)?];
    Some(CoordinateRow { atom: rows::unsigned(atom)?, values })
}

impl Coordinates {
    /// "A value above MAX_XYZ": the row's whole number, unscaled, by its absolute size.
    pub fn pass_the_most(&self) -> bool {
        let Some(most) = self.most else { return false };
        self.rows.iter().flat_map(|row| row.values).any(|value| value.abs() > most)
    }

    /// The position of an atom, counted from 1.
    pub fn position(&self, atom: i32) -> Position {
        let row = self.rows.iter().find(|row| row.atom == atom);
        let (Some(row), Some(factor)) = (row, self.factor) else { return Position::NotGiven };
        let [x, y, z] = row.values.map(|value| coordinate(value, factor));
        Position::At(x, y, z)
    }
}

/// The whole product of row value and factor digits, divided by the factor's power of ten.
pub fn coordinate(value: i32, factor: Factor) -> f64 {
    nearest(i64::from(value) * factor.digits, factor.decimals)
}

/// The float nearest to a product over a power of ten, of two the even one; 0 is +0.0.
///
/// The product lies below 2^50 and the power below 2^30, so 53 binary digits of the quotient are
/// found with a shift of 2 to 82, and the shifted product stays below 2^83.
pub fn nearest(product: i64, decimals: u32) -> f64 {
    if product == 0 {
        return 0.0;
    }
    let (size, power) = (u128::from(product.unsigned_abs()), 10u128.pow(decimals));
    let shift = (0..=82).find(|shift| (size << shift) / power >= 1 << 52).expect("53 binary digits");
    let (floor, rest) = ((size << shift) / power, (size << shift) % power);
    let is_up = 2 * rest > power || (2 * rest == power && floor % 2 == 1);
    let digits = (floor + u128::from(is_up)) as u64;
    // 53 digits that are all rounded up to a 54th carry into the exponent, as they should
    let exponent = 1023 + 52 - shift;
    let sign = u64::from(product < 0) << 63;
    f64::from_bits(sign + (exponent << 52) + (digits - (1 << 52)))
}

/// The 1,024 floats.
pub fn placed(coordinates: &Coordinates) -> Vec<f64> {
    (1..=ATOMS as i32).flat_map(|atom| floats(coordinates.position(atom))).collect()
}

/// "Per atom 1 if given, X, Y, Z; else four 0."
fn floats(position: Position) -> [f64; WIDTH] {
    match position {
        Position::At(x, y, z) => [1.0, x, y, z],
        Position::NotGiven => [0.0; WIDTH],
    }
}

/// An atom's position out of a lent table, whatever stands in it: given where its first float is 1.
/// Atom 0, one above 256 and one beyond a short table are not given.
pub fn position(positions: &[f64], atom: usize) -> Position {
    let number = atom.wrapping_sub(1);
    match positions.chunks_exact(WIDTH).take(ATOMS).nth(number) {
        Some(&[1.0, x, y, z]) => Position::At(x, y, z),
        _ => Position::NotGiven,
    }
}

#[cfg(test)]
mod tests {
    use super::nearest;

    /// Product and power are both below 2^53, so a float holds them, and IEEE 754 rounds the
    /// quotient of two floats to the nearest: one division gives what the whole numbers give.
    #[test]
    fn one_rounded_division_is_the_nearest_float() {
        let mut random = crate::generate::Random::new(51);
        let edges = [0, 1, 2, 3, 5, 7, 999_999, 999_999_999, 999_998_999_000_001, 1 << 49];
        for decimals in 0..=9 {
            let power = 10i64.pow(decimals) as f64;
            let any = (0..20_000).map(|_| (random.bits() >> random.below(60) >> 15) as i64);
            for product in edges.into_iter().chain(any).flat_map(|size| [size, -size]) {
                let quotient = product as f64 / power;
                let found = nearest(product, decimals);
                assert_eq!(found.to_bits(), quotient.to_bits(), "{product} / 10^{decimals}");
            }
        }
    }
}
