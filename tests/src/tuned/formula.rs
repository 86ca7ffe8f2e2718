//! The formula's line in one pass, and its comparison with the atoms.

use super::lines::is_blank;
use super::symbols;

/// An entry: the table's number for its letters, its mass if one is written, its count.
pub struct Entry {
    pub element: u8,
    pub mass: Option<i32>,
    pub count: i32,
}

/// Hands on each entry, or answers the lowest refusal of the line: 9, else 10, else 12.
#[inline]
pub fn entries(value: &[u8], mut told: impl FnMut(Entry)) -> Result<(), u32> {
    let (mut at, mut parted, mut empty) = (0, true, true);
    let (mut ranged, mut known) = (true, true);
    while at < value.len() {
        match value[at] {
            byte if is_blank(byte) => parted = true,
            b'*' if empty => return Err(9),
            b'*' => (parted, empty) = (true, true),
            b'^' if !parted => return Err(9),
            _ => {
                let (entry, end) = entry(value, at).ok_or(9u32)?;
                ranged &= (1..=9999).contains(&entry.count)
                    && entry.mass.is_none_or(|mass| (1..=300).contains(&mass));
                known &= symbols::nuclide(entry.element, entry.mass).is_some();
                told(entry);
                (at, parted, empty) = (end, false, false);
                continue;
            }
        }
        at += 1;
    }
    match (empty, ranged, known) {
        (true, _, _) => Err(9),
        (_, false, _) => Err(10),
        (_, _, false) => Err(12),
        _ => Ok(()),
    }
}

/// A run of 1 to `most` digits: its value and its end.
#[inline]
fn run(value: &[u8], at: usize, most: usize) -> Option<(i32, usize)> {
    let (mut number, mut end) = (0i32, at);
    while let Some(byte @ b'0'..=b'9') = value.get(end) {
        if end - at == most {
            return None;
        }
        number = 10 * number + i32::from(byte - b'0');
        end += 1;
    }
    (end > at).then_some((number, end))
}

/// The entry that starts at a place, and its end.
#[inline]
fn entry(value: &[u8], at: usize) -> Option<(Entry, usize)> {
    let (mass, letter) = match value[at] {
        b'^' => run(value, at + 1, 3).map(|(mass, end)| (Some(mass), end))?,
        _ => (None, at),
    };
    let upper = *value.get(letter).filter(|byte| byte.is_ascii_uppercase())?;
    let lower = value.get(letter + 1).map_or(0, |byte| symbols::column(*byte));
    let behind = letter + 1 + usize::from(lower > 0);
    let element = symbols::element(upper, lower);
    let (count, end) = match value.get(behind) {
        Some(b'/') => run(value, behind + 1, 6)?,
        Some(b'0'..=b'9') => run(value, behind, 6)?,
        Some(byte) if lower == 0 && !is_blank(*byte) && *byte != b'*' => return None,
        _ => (1, behind),
    };
    Some((Entry { element, mass, count }, end))
}

/// How many atoms of each element, mass 0 none, a list has, where masses occur.
pub struct Masses {
    keys: Vec<(i32, i32, i32)>,
}

impl Masses {
    /// The totals of the atoms with a mass, given as rows of the table.
    pub fn of(atoms: &[i32]) -> Self {
        let mut masses = Masses { keys: Vec::new() };
        for atom in atoms.chunks_exact(5).filter(|atom| atom[1] > 0) {
            match masses.key(atom[0], atom[1]) {
                Some(left) => *left += 1,
                None => masses.keys.push((atom[0], atom[1], 1)),
            }
        }
        masses
    }

    fn key(&mut self, element: i32, mass: i32) -> Option<&mut i32> {
        self.keys.iter_mut().find(|key| (key.0, key.1) == (element, mass)).map(|key| &mut key.2)
    }

    /// Takes so many away, if they are there.
    fn taken(&mut self, element: i32, mass: i32, count: i32) -> bool {
        match self.key(element, mass) {
            Some(left) if *left >= count => {
                *left -= count;
                true
            }
            _ => false,
        }
    }

    /// Takes a formula's entries away: whether nothing is short and nothing left.
    pub fn agree(&mut self, value: &[u8]) -> bool {
        let mut short = false;
        let told = entries(value, |entry| match symbols::nuclide(entry.element, entry.mass) {
            Some((element, mass @ 1..)) if !short => short = !self.taken(element, mass, entry.count),
            _ => {}
        });
        told.is_ok() && !short && self.keys.iter().all(|key| key.2 == 0)
    }
}
