//! Each list's rows in the lent table: what a row breaks with the rows before it, and where it is put.

use super::packed::{put, two, Put};
use super::reading::{Reading, Refused};
use super::rows::{self, Fields};
use super::symbols;

pub const ATOMS: usize = 256;
pub const BONDS: usize = 512;
pub const SPREADS: usize = 64;
pub const STEREO: usize = 128;

pub const HELICAL_AT: usize = 13;
pub const ATOMS_FROM: usize = 16;
pub const BONDS_FROM: usize = 1296;
pub const CENTRES_FROM: usize = 2960;
pub const PAIRS_FROM: usize = 3344;

/// Bits of a packed row below its atoms: a bond's kind; a descriptor and a group.
pub const KIND: u32 = 3;
pub const MARKS: u32 = 9;

/// CHARGE or RADICAL: where the values stand, and which number of an atom names the row.
#[derive(Clone, Copy)]
pub struct Spread {
    pub list: usize,
    pub from: usize,
    pub column: usize,
}

pub const CHARGE: Spread = Spread { list: 0, from: 2832, column: 3 };
pub const RADICAL: Spread = Spread { list: 1, from: 2896, column: 4 };

impl Reading<'_> {
    pub(super) fn atom_row(&mut self, row: &[u8]) -> Refused {
        let (number, element, mass, hydrogens) = rows::atom(row).ok_or(9u32)?;
        if hydrogens > 15 || mass.is_some_and(|mass| !(1..=300).contains(&mass)) {
            return Err(10);
        }
        if number as usize != self.atoms + 1 {
            return Err(11);
        }
        let (element, mass) = symbols::nuclide(element, mass).ok_or(12u32)?;
        if self.atoms == ATOMS {
            return Err(14);
        }
        self.add_atom(element, mass, hydrogens);
        Ok(())
    }

    #[inline]
    pub(super) fn add_atom(&mut self, element: i32, mass: i32, hydrogens: i32) {
        let from = ATOMS_FROM + 5 * self.atoms;
        self.table[from..from + 3].copy_from_slice(&[element, mass, hydrogens]);
        self.atoms += 1;
        self.counts[1] -= hydrogens;
        if mass == 0 {
            self.counts[element as usize] -= 1;
        } else {
            self.masses = true;
        }
    }

    #[inline]
    pub(super) fn listed(&self, atom: i32) -> bool {
        1 <= atom && atom as usize <= self.atoms
    }

    #[inline]
    pub(super) fn bond(&mut self, (one, other, kind): (i32, i32, i32)) -> Refused {
        if !self.listed(one) || !self.listed(other) {
            return Err(11);
        }
        if one == other {
            return Err(13);
        }
        let row = two(one, other) << KIND | kind;
        let list = &mut self.table[BONDS_FROM..BONDS_FROM + BONDS];
        match put(list, &mut self.bonds, row, KIND) {
            Put::Added => Ok(()),
            Put::Found(there) if there == row => Ok(()),
            Put::Found(_) => Err(13),
            Put::Full => Err(14),
        }
    }

    pub(super) fn centre(&mut self, row: &[u8]) -> Refused {
        let (atom, descriptor, group) = rows::centre(row).ok_or(9u32)?;
        if !self.listed(atom) {
            return Err(11);
        }
        let row = atom << MARKS | descriptor << 7 | group;
        let list = &mut self.table[CENTRES_FROM..CENTRES_FROM + STEREO];
        once(put(list, &mut self.centres, row, MARKS))
    }

    pub(super) fn pair(&mut self, row: &[u8]) -> Refused {
        let (one, other, descriptor, group) = rows::pair(row).ok_or(9u32)?;
        if !self.listed(one) || !self.listed(other) {
            return Err(11);
        }
        if one == other {
            return Err(13);
        }
        let row = two(one, other) << MARKS | descriptor << 7 | group;
        let list = &mut self.table[PAIRS_FROM..PAIRS_FROM + STEREO];
        once(put(list, &mut self.pairs, row, MARKS))
    }

    /// A row of CHARGE or RADICAL: over all its fields 9, then 10, 11, 13 and 14.
    pub(super) fn spread(&mut self, of: Spread, row: &[u8]) -> Refused {
        let mut fields = Fields::new(row);
        let first = fields.next().ok_or(9u32)?;
        let signed = of.list == CHARGE.list;
        let value = if signed { rows::signed(first) } else { rows::unsigned(first) }.ok_or(9u32)?;
        let (mut listed, mut members) = (true, 0);
        for field in fields {
            listed &= self.listed(rows::unsigned(field).ok_or(9u32)?);
            members += 1;
        }
        let ranged = if signed { value != 0 && value.abs() <= 99 } else { (1..=15).contains(&value) };
        if !ranged {
            return Err(10);
        }
        if !listed {
            return Err(11);
        }
        self.add_spread(of, row, members, value)
    }

    pub(super) fn add_spread(&mut self, of: Spread, row: &[u8], members: usize, value: i32) -> Refused {
        let number = self.spreads[of.list] + 1;
        if members == 0 && self.bare[of.list] != 0 {
            return Err(13);
        }
        for field in Fields::new(row).skip(1) {
            let atom = rows::unsigned(field).ok_or(9u32)? as usize;
            let place = &mut self.table[ATOMS_FROM + 5 * (atom - 1) + of.column];
            if *place != 0 {
                return Err(13);
            }
            *place = number as i32;
        }
        if number > SPREADS {
            return Err(14);
        }
        if members == 0 {
            self.bare[of.list] = number;
        }
        self.table[of.from + number - 1] = value;
        self.spreads[of.list] = number;
        Ok(())
    }
}

/// A list in which the same atoms again are a clash.
fn once(put: Put) -> Refused {
    match put {
        Put::Added => Ok(()),
        Put::Found(_) => Err(13),
        Put::Full => Err(14),
    }
}
