//! The quick leaves: a row of ATOMLIST, BONDLIST or XYZ in its plainest spelling, read at the line's
//! first byte with no pass before it. They refuse nothing; a row that is not plain is left to the
//! ordinary step.

use super::symbols;

pub struct Atom {
    pub number: usize,
    pub element: u8,
    pub hydrogens: i32,
    pub next: usize,
}

pub struct Bond {
    pub one: usize,
    pub other: usize,
    pub kind: i32,
    pub next: usize,
}

pub struct Coordinates {
    pub atom: usize,
    pub values: [i32; 3],
    pub next: usize,
}

/// The longest plain rows: `256 Cl 1`, `256 255 S` and `256 -999999 -999999 -999999` with CR and
/// line feed.
const ATOM: usize = 10;
const BOND: usize = 11;
const COORDINATES: usize = 29;

/// One to three digits and a space: the number and the place behind the space.
#[inline(always)]
fn number<const LENGTH: usize>(row: &[u8; LENGTH], at: usize) -> Option<(usize, usize)> {
    let digit = |at: usize| row[at].wrapping_sub(b'0');
    let mut value = usize::from(digit(at));
    if value > 9 {
        return None;
    }
    let mut end = at + 1;
    while end < at + 3 && digit(end) <= 9 {
        value = 10 * value + usize::from(digit(end));
        end += 1;
    }
    (row[end] == b' ').then_some((value, end + 1))
}

/// A sign, if any, and one to six digits: the value and the place behind them.
#[inline(always)]
fn signed<const LENGTH: usize>(row: &[u8; LENGTH], at: usize) -> Option<(i32, usize)> {
    let is_minus = row[at] == b'-';
    let from = at + usize::from(is_minus || row[at] == b'+');
    let (mut value, mut end) = (0, from);
    while end < from + 6 && row[end].is_ascii_digit() {
        value = 10 * value + i32::from(row[end] - b'0');
        end += 1;
    }
    (end > from).then_some((if is_minus { -value } else { value }, end))
}

/// The place behind a space.
#[inline(always)]
fn parted<const LENGTH: usize>(row: &[u8; LENGTH], at: usize) -> Option<usize> {
    (row[at] == b' ').then_some(at + 1)
}

/// The place behind a line feed, or a carriage return and a line feed.
#[inline(always)]
fn closed<const LENGTH: usize>(row: &[u8; LENGTH], at: usize) -> Option<usize> {
    match row[at] {
        b'\n' => Some(at + 1),
        b'\r' if row[at + 1] == b'\n' => Some(at + 2),
        _ => None,
    }
}

/// Number, symbol without `^`, at most one digit of hydrogens.
#[inline(always)]
pub fn atom(block: &[u8], at: usize) -> Option<Atom> {
    let row: &[u8; ATOM] = block.get(at..)?.first_chunk()?;
    let (number, symbol) = number(row, 0)?;
    let upper = row[symbol];
    if !upper.is_ascii_uppercase() {
        return None;
    }
    let lower = symbols::column(row[symbol + 1]);
    let behind = symbol + 1 + usize::from(lower > 0);
    let (hydrogens, end) = match row[behind] {
        b' ' if row[behind + 1].is_ascii_digit() => (i32::from(row[behind + 1] - b'0'), behind + 2),
        _ => (0, behind),
    };
    let next = at + closed(row, end)?;
    Some(Atom { number, element: symbols::element(upper, lower), hydrogens, next })
}

/// Two numbers and the kind's letter.
#[inline(always)]
pub fn bond(block: &[u8], at: usize) -> Option<Bond> {
    let row: &[u8; BOND] = block.get(at..)?.first_chunk()?;
    let (one, behind) = number(row, 0)?;
    let (other, letter) = number(row, behind)?;
    let kind = kind(row[letter])?;
    let next = at + closed(row, letter + 1)?;
    Some(Bond { one, other, kind, next })
}

/// An atom and three signed numbers.
#[inline(always)]
pub fn coordinates(block: &[u8], at: usize) -> Option<Coordinates> {
    let row: &[u8; COORDINATES] = block.get(at..)?.first_chunk()?;
    let (atom, behind) = number(row, 0)?;
    let (x, behind) = signed(row, behind)?;
    let (y, behind) = signed(row, parted(row, behind)?)?;
    let (z, behind) = signed(row, parted(row, behind)?)?;
    let next = at + closed(row, behind)?;
    Some(Coordinates { atom, values: [x, y, z], next })
}

/// "S, D, T, Q or A" as 1 to 5.
#[inline(always)]
pub fn kind(letter: u8) -> Option<i32> {
    match letter {
        b'S' => Some(1),
        b'D' => Some(2),
        b'T' => Some(3),
        b'Q' => Some(4),
        b'A' => Some(5),
        _ => None,
    }
}
