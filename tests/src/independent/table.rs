//! Limits and the layout of the structure table: document 01, "The structure table", and request L4,
//! "Table number 13 becomes 1".

use super::coordinates::Coordinates;

pub const NUMBERS: usize = 3856;
pub const LONGEST_BLOCK: usize = 32768;
pub const ATOMS: usize = 256;
pub const BONDS: usize = 512;
pub const SPREADS: usize = 64;
pub const CENTRES: usize = 128;
pub const PAIRS: usize = 128;

pub const TEXTS_FROM: usize = 7;
pub const HELICAL_AT: usize = 13;
pub const ATOMS_FROM: usize = 16;
pub const BONDS_FROM: usize = 1296;
pub const CHARGES_FROM: usize = 2832;
pub const RADICALS_FROM: usize = 2896;
pub const CENTRES_FROM: usize = 2960;
pub const PAIRS_FROM: usize = 3344;

/// An atom as ATOMLIST gives it; its number is its position, from 1.
#[derive(Clone, Copy, Debug, PartialEq)]
pub struct Atom {
    pub element: i32,
    pub mass: i32,
    pub hydrogens: i32,
}

#[derive(Clone, Copy, Debug, PartialEq)]
pub struct Bond {
    pub lower: i32,
    pub higher: i32,
    pub kind: i32,
}

/// A CHARGE or RADICAL row: one value spread over its atoms.
#[derive(Clone, Debug, PartialEq)]
pub struct Spread {
    pub value: i32,
    pub atoms: Vec<i32>,
}

#[derive(Clone, Copy, Debug, PartialEq)]
pub struct Centre {
    pub atom: i32,
    pub descriptor: i32,
    pub group: i32,
}

#[derive(Clone, Copy, Debug, PartialEq)]
pub struct Pair {
    pub lower: i32,
    pub higher: i32,
    pub descriptor: i32,
    pub group: i32,
}

/// A block's content; `texts` are start and length of title, origin and owner; `helical` is the YES of
/// STEREOMOLECULE. The coordinates stand in no structure table.
#[derive(Clone, Debug, Default, PartialEq)]
pub struct Structure {
    pub block_id: i32,
    pub texts: [(usize, usize); 3],
    pub atoms: Vec<Atom>,
    pub bonds: Vec<Bond>,
    pub charges: Vec<Spread>,
    pub radicals: Vec<Spread>,
    pub centres: Vec<Centre>,
    pub pairs: Vec<Pair>,
    pub helical: bool,
    pub coordinates: Coordinates,
}

/// The 3,856 numbers of a structure whose lists are in any order.
pub fn laid_out(structure: &Structure) -> Vec<i32> {
    let mut sorted = structure.clone();
    sort(&mut sorted);
    let mut table = vec![0; NUMBERS];
    place_head(&mut table, &sorted);
    for (index, atom) in sorted.atoms.iter().enumerate() {
        let number = index as i32 + 1;
        let charge_row = row_of(&sorted.charges, number);
        let radical_row = row_of(&sorted.radicals, number);
        let numbers = [atom.element, atom.mass, atom.hydrogens, charge_row, radical_row];
        place(&mut table, ATOMS_FROM + 5 * index, &numbers);
    }
    for (index, bond) in sorted.bonds.iter().enumerate() {
        place(&mut table, BONDS_FROM + 3 * index, &[bond.lower, bond.higher, bond.kind]);
    }
    for (index, row) in sorted.charges.iter().enumerate() {
        table[CHARGES_FROM + index] = row.value;
    }
    for (index, row) in sorted.radicals.iter().enumerate() {
        table[RADICALS_FROM + index] = row.value;
    }
    for (index, centre) in sorted.centres.iter().enumerate() {
        let numbers = [centre.atom, centre.descriptor, centre.group];
        place(&mut table, CENTRES_FROM + 3 * index, &numbers);
    }
    for (index, pair) in sorted.pairs.iter().enumerate() {
        let numbers = [pair.lower, pair.higher, pair.descriptor, pair.group];
        place(&mut table, PAIRS_FROM + 4 * index, &numbers);
    }
    table
}

/// "Bonds, centres and pairs ascend by their atoms. Charge and radical rows ascend by lowest atom,
/// the row without atoms last."
fn sort(structure: &mut Structure) {
    structure.bonds.sort_by_key(|bond| (bond.lower, bond.higher));
    structure.centres.sort_by_key(|centre| centre.atom);
    structure.pairs.sort_by_key(|pair| (pair.lower, pair.higher));
    structure.charges.sort_by_key(lowest_atom);
    structure.radicals.sort_by_key(lowest_atom);
}

fn lowest_atom(row: &Spread) -> i32 {
    row.atoms.iter().copied().min().unwrap_or(i32::MAX)
}

/// The row, from 1, in which an atom stands; 0 none.
fn row_of(rows: &[Spread], atom: i32) -> i32 {
    let index = rows.iter().position(|row| row.atoms.contains(&atom));
    index.map_or(0, |index| index as i32 + 1)
}

fn place_head(table: &mut [i32], structure: &Structure) {
    let counts = [
        structure.atoms.len() as i32,
        structure.bonds.len() as i32,
        structure.charges.len() as i32,
        structure.radicals.len() as i32,
        structure.centres.len() as i32,
        structure.pairs.len() as i32,
        structure.block_id,
    ];
    place(table, 0, &counts);
    for (index, (start, length)) in structure.texts.iter().enumerate() {
        place(table, TEXTS_FROM + 2 * index, &[*start as i32, *length as i32]);
    }
    table[HELICAL_AT] = i32::from(structure.helical);
}

fn place(table: &mut [i32], from: usize, numbers: &[i32]) {
    table[from..from + numbers.len()].copy_from_slice(numbers);
}
