//! The rules of each list over what was read before: document 01, "Rows" and "Refusal numbers" 9
//! to 14, and request L4 for the one row of STEREOMOLECULE. Each function answers the row's values, or
//! every refusal number the row breaks.

use super::elements;
use super::rows;
use super::table::*;

/// Every refusal number that a row breaks.
pub type Broken = Vec<u32>;

/// The values if nothing is broken.
pub fn sound<Values>(values: Values, broken: Broken) -> Result<Values, Broken> {
    if broken.is_empty() {
        Ok(values)
    } else {
        Err(broken)
    }
}

/// Whether an atom number is one of those listed.
pub fn is_listed(atom: i32, atoms: &[Atom]) -> bool {
    1 <= atom && atom as usize <= atoms.len()
}

/// ATOMLIST: hydrogens 0 to 15, mass 1 to 300, numbers 1, 2, 3 and on, symbols known.
pub fn atom(fields: &[&[u8]], atoms: &[Atom]) -> Result<Atom, Broken> {
    let Some((number, symbol, hydrogens)) = rows::atom(fields) else { return Err(vec![9]) };
    let mut broken = Vec::new();
    if hydrogens > 15 || symbol.mass.is_some_and(|mass| !(1..=300).contains(&mass)) {
        broken.push(10);
    }
    if number as usize != atoms.len() + 1 {
        broken.push(11);
    }
    let known = elements::element(symbol.letters, symbol.mass);
    if known.is_none() {
        broken.push(12);
    }
    if atoms.len() == ATOMS {
        broken.push(14);
    }
    let (element, mass) = known.unwrap_or((0, 0));
    sound(Atom { element, mass, hydrogens }, broken)
}

/// BONDLIST: "The same pair and kind again is dropped" (none); "another kind for the pair, or an
/// atom with itself, is a clash."
pub fn bond(fields: &[&[u8]], atoms: &[Atom], bonds: &[Bond]) -> Result<Option<Bond>, Broken> {
    let Some((one, other, kind)) = rows::bond(fields) else { return Err(vec![9]) };
    let bond = Bond { lower: one.min(other), higher: one.max(other), kind };
    let mut broken = Vec::new();
    if !is_listed(one, atoms) || !is_listed(other, atoms) {
        broken.push(11);
    }
    let same_pair = |old: &&Bond| old.lower == bond.lower && old.higher == bond.higher;
    let before = bonds.iter().find(same_pair);
    if one == other || before.is_some_and(|old| old.kind != kind) {
        broken.push(13);
    }
    if before.is_none() && bonds.len() == BONDS {
        broken.push(14);
    }
    sound(if before.is_none() { Some(bond) } else { None }, broken)
}

/// CHARGE: "-99 to 99 and not 0".
pub fn charge(fields: &[&[u8]], atoms: &[Atom], charges: &[Spread]) -> Result<Spread, Broken> {
    let Some((value, members)) = rows::charge(fields) else { return Err(vec![9]) };
    let fits = (-99..=99).contains(&value) && value != 0;
    spread(Spread { value, atoms: members }, fits, atoms, charges)
}

/// RADICAL: "1 to 15".
pub fn radical(fields: &[&[u8]], atoms: &[Atom], radicals: &[Spread]) -> Result<Spread, Broken> {
    let Some((value, members)) = rows::radical(fields) else { return Err(vec![9]) };
    let fits = (1..=15).contains(&value);
    spread(Spread { value, atoms: members }, fits, atoms, radicals)
}

/// "In each list an atom stands once, and one row at most has no atoms; otherwise a clash."
fn spread(row: Spread, fits: bool, atoms: &[Atom], before: &[Spread]) -> Result<Spread, Broken> {
    let mut broken = Vec::new();
    if !fits {
        broken.push(10);
    }
    if row.atoms.iter().any(|&member| !is_listed(member, atoms)) {
        broken.push(11);
    }
    let second_without = row.atoms.is_empty() && before.iter().any(|old| old.atoms.is_empty());
    let mut members: Vec<i32> = before.iter().flat_map(|old| old.atoms.clone()).collect();
    members.extend(&row.atoms);
    members.sort();
    let stands_twice = members.windows(2).any(|two| two[0] == two[1]);
    if second_without || stands_twice {
        broken.push(13);
    }
    if before.len() == SPREADS {
        broken.push(14);
    }
    sound(row, broken)
}

/// STEREOCENTER: "An atom twice is a clash."
pub fn centre(fields: &[&[u8]], atoms: &[Atom], centres: &[Centre]) -> Result<Centre, Broken> {
    let Some((atom, descriptor, group)) = rows::centre(fields) else { return Err(vec![9]) };
    let mut broken = Vec::new();
    if !is_listed(atom, atoms) {
        broken.push(11);
    }
    if centres.iter().any(|old| old.atom == atom) {
        broken.push(13);
    }
    if centres.len() == CENTRES {
        broken.push(14);
    }
    sound(Centre { atom, descriptor, group }, broken)
}

/// STEREOPAIR: "A pair twice, in either order, or an atom with itself is a clash."
pub fn pair(fields: &[&[u8]], atoms: &[Atom], pairs: &[Pair]) -> Result<Pair, Broken> {
    let Some((one, other, descriptor, group)) = rows::pair(fields) else { return Err(vec![9]) };
    let pair = Pair { lower: one.min(other), higher: one.max(other), descriptor, group };
    let mut broken = Vec::new();
    if !is_listed(one, atoms) || !is_listed(other, atoms) {
        broken.push(11);
    }
    let twice = pairs.iter().any(|old| old.lower == pair.lower && old.higher == pair.higher);
    if one == other || twice {
        broken.push(13);
    }
    if pairs.len() == PAIRS {
        broken.push(14);
    }
    sound(pair, broken)
}

/// STEREOMOLECULE: "its only value is `YES`", and "another value or a second row 9". Where the word
/// stands already, any row is a second one, the word again too.
pub fn helical(fields: &[&[u8]], stands_already: bool) -> Result<(), Broken> {
    if fields == [b"YES"] && !stands_already {
        Ok(())
    } else {
        Err(vec![9])
    }
}
