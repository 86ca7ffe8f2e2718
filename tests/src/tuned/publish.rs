//! The table of an accepted block, from the state that its lines left.

use super::lists::*;
use super::reading::Reading;

impl Reading<'_> {
    /// The counts, the packed lists spread out, the rows of charges and radicals by lowest atom.
    pub(super) fn publish(&mut self) {
        let counts = [self.atoms, self.bonds, self.spreads[0], self.spreads[1], self.centres, self.pairs];
        for (place, count) in counts.into_iter().enumerate() {
            self.table[place] = count as i32;
        }
        self.renumber(CHARGE);
        self.renumber(RADICAL);
        for index in (0..self.bonds).rev() {
            let row = self.table[BONDS_FROM + index];
            let numbers = [row >> 13, row >> KIND & 1023, row & 7];
            self.table[BONDS_FROM + 3 * index..][..3].copy_from_slice(&numbers);
        }
        for index in (0..self.centres).rev() {
            let row = self.table[CENTRES_FROM + index];
            let numbers = [row >> MARKS, row >> 7 & 3, row & 127];
            self.table[CENTRES_FROM + 3 * index..][..3].copy_from_slice(&numbers);
        }
        for index in (0..self.pairs).rev() {
            let row = self.table[PAIRS_FROM + index];
            let numbers = [row >> 19, row >> MARKS & 1023, row >> 7 & 3, row & 127];
            self.table[PAIRS_FROM + 4 * index..][..4].copy_from_slice(&numbers);
        }
    }

    /// Rows take their numbers in the order in which the atoms name them, the bare one the last.
    fn renumber(&mut self, of: Spread) {
        let rows = self.spreads[of.list];
        if rows == 0 {
            return;
        }
        let mut numbers = [0; SPREADS + 1];
        let mut values = [0; SPREADS];
        let mut next = 0;
        for atom in 0..self.atoms {
            let place = ATOMS_FROM + 5 * atom + of.column;
            let row = self.table[place] as usize;
            if row == 0 {
                continue;
            }
            if numbers[row] == 0 {
                values[next] = self.table[of.from + row - 1];
                next += 1;
                numbers[row] = next as i32;
            }
            self.table[place] = numbers[row];
        }
        if self.bare[of.list] != 0 {
            values[next] = self.table[of.from + self.bare[of.list] - 1];
        }
        self.table[of.from..of.from + rows].copy_from_slice(&values[..rows]);
    }
}
