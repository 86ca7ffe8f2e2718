//! Random structures within the limits, mostly of few atoms: what sound blocks and tables hold. About a
//! seventh of them is helical, and has no centres and no pairs then; about a tenth is made of small
//! molecules.

use super::molecules::small_groups;
use super::random::Random;
use crate::independent::table::{Atom, Bond, Centre, Pair, Spread, Structure};

/// A random structure without texts.
pub fn structure(random: &mut Random) -> Structure {
    let bare = if random.chance(10) { small_groups(random) } else { any_bonds(random) };
    furnished(random, bare)
}

/// Up to 24 atoms, and bonds between any of them.
fn any_bonds(random: &mut Random) -> Structure {
    let count = match random.below(10) {
        0..=5 => random.between(1, 4),
        6..=8 => random.between(4, 9),
        _ => random.between(10, 24),
    };
    let atoms = (0..count).map(|_| atom(random)).collect();
    let bonds = if random.chance(65) { bonds(random, count) } else { Vec::new() };
    Structure { atoms, bonds, ..Structure::default() }
}

/// Atoms and bonds with the other lists put to them.
pub(super) fn furnished(random: &mut Random, mut made: Structure) -> Structure {
    let count = made.atoms.len() as i32;
    let all: Vec<i32> = (1..=count).collect();
    if random.chance(35) {
        let values: Vec<i32> = (-99..=99).filter(|&value| value != 0).collect();
        made.charges = spreads(random, &all, &values);
    }
    if random.chance(30) {
        made.radicals = spreads(random, &all, &(1..=15).collect::<Vec<i32>>());
    }
    if random.chance(30) {
        made.centres = centres(random, &all);
    }
    if random.chance(30) {
        made.pairs = pairs(random, count);
    }
    if random.chance(35) {
        made.block_id = *random.pick(&[&1, &7, &42, &4711, &999_999]);
    }
    if random.chance(14) {
        made = made_helical(made);
    }
    made
}

/// A structure with the YES, and so without its centres and pairs.
pub fn made_helical(made: Structure) -> Structure {
    Structure { helical: true, centres: Vec::new(), pairs: Vec::new(), ..made }
}

pub(super) fn atom(random: &mut Random) -> Atom {
    let element = match random.below(10) {
        0..=2 => 6,
        3 | 4 => 1,
        5 | 6 => random.between(7, 9),
        7 => random.between(10, 20),
        _ => random.between(1, 103),
    };
    let mass = match random.below(20) {
        0 => random.between(1, 300),
        1 => *random.pick(&[&1, &2, &3, &300]),
        2 | 3 if element == 1 => random.between(1, 4),
        _ => 0,
    };
    let hydrogens = match random.below(10) {
        0..=5 => 0,
        6..=8 => random.between(1, 3),
        _ => random.between(0, 15),
    };
    Atom { element, mass, hydrogens }
}

/// Every pair of atoms, lower before higher, in random order.
fn ends(random: &mut Random, count: i32) -> Vec<(i32, i32)> {
    let above = |lower: i32| (lower + 1..=count).map(move |higher| (lower, higher));
    let mut ends: Vec<(i32, i32)> = (1..=count).flat_map(above).collect();
    random.shuffle(&mut ends);
    ends
}

fn bonds(random: &mut Random, count: i32) -> Vec<Bond> {
    let mut ends = ends(random, count);
    ends.truncate(random.below(count as usize + 3));
    let bond = |(lower, higher)| Bond { lower, higher, kind: random.between(1, 5) };
    ends.into_iter().map(bond).collect()
}

/// Rows of one to four atoms each, and sometimes one without atoms.
fn spreads(random: &mut Random, atoms: &[i32], values: &[i32]) -> Vec<Spread> {
    let mut free = atoms.to_vec();
    random.shuffle(&mut free);
    let mut rows = Vec::new();
    for _ in 0..random.below(5) {
        let size = (1 + random.below(3)).min(free.len());
        if size > 0 {
            let members = free.split_off(free.len() - size);
            rows.push(Spread { value: spread_value(random, values), atoms: members });
        }
    }
    if random.chance(25) {
        rows.push(Spread { value: spread_value(random, values), atoms: Vec::new() });
    }
    random.shuffle(&mut rows);
    rows
}

/// Small values and extreme ones more often than the others.
fn spread_value(random: &mut Random, values: &[i32]) -> i32 {
    let index = match random.below(4) {
        0 => 0,
        1 => values.len() - 1,
        2 => values.len() / 2,
        _ => random.below(values.len()),
    };
    values[index]
}

fn group(random: &mut Random) -> i32 {
    match random.below(3) {
        0 => 0,
        1 => random.between(65, 90),
        _ => *random.pick(&[&65, &90, &97, &98, &122]),
    }
}

fn centres(random: &mut Random, atoms: &[i32]) -> Vec<Centre> {
    let mut chosen = atoms.to_vec();
    random.shuffle(&mut chosen);
    chosen.truncate(random.below(5));
    let mut made = Vec::new();
    for atom in chosen {
        made.push(Centre { atom, descriptor: random.between(1, 2), group: group(random) });
    }
    made
}

fn pairs(random: &mut Random, count: i32) -> Vec<Pair> {
    let mut chosen = ends(random, count);
    chosen.truncate(random.below(5));
    let mut made = Vec::new();
    for (lower, higher) in chosen {
        let descriptor = random.between(0, 2);
        made.push(Pair { lower, higher, descriptor, group: group(random) });
    }
    made
}
