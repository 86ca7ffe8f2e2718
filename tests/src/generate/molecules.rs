//! Atoms and bonds of several groups, for request L1: salts, hydrates and complexes of small molecules,
//! and large ones of up to 256 atoms and 512 bonds. The atoms are numbered in any way.

use super::random::Random;
use super::structures::atom;
use crate::independent::table::{Atom, Bond, Structure, ATOMS, BONDS};

/// The kind of `A`, which joins nothing.
const LOOSE: i32 = 5;

/// Atoms as element, mass and hydrogens; bonds as two of their places, from 0, and a kind.
type Molecule = (Vec<(i32, i32, i32)>, Vec<(usize, usize, i32)>);

/// Ions and molecules of one listed atom.
const LONE: [&(i32, i32, i32); 15] = [
    &(11, 0, 0),    // Na
    &(17, 0, 0),    // Cl
    &(19, 0, 0),    // K
    &(26, 0, 0),    // Fe
    &(35, 0, 1),    // H Br
    &(7, 0, 4),     // ammonium
    &(8, 0, 2),     // water
    &(8, 0, 1),     // hydroxide
    &(6, 0, 4),     // methane
    &(6, 13, 4),    // ^13C methane
    &(1, 0, 0),     // H
    &(1, 2, 0),     // D
    &(1, 3, 1),     // H T
    &(1, 1, 15),    // ^1H with the most hydrogens
    &(103, 300, 0), // the last element of the greatest mass
];

/// One of the ions and molecules that salts, hydrates and complexes are made of.
fn small_molecule(random: &mut Random) -> Molecule {
    let of = |atoms: &[(i32, i32, i32)], bonds: &[(usize, usize, i32)]| (atoms.to_vec(), bonds.to_vec());
    match random.below(20) {
        0..=7 => of(&[*random.pick(&LONE)], &[]),
        8 | 9 => of(&[(8, 0, 0), (1, 0, 0), (1, 0, 0)], &[(0, 1, 1), (0, 2, 1)]),
        10 => of(&[(1, 2, 0), (8, 18, 0), (1, 0, 0)], &[(0, 1, 1), (1, 2, 1)]),
        11 => of(&[(1, 0, 0), (35, 0, 0)], &[(0, 1, 1)]),
        12 => of(&[(1, 0, 0), (1, 0, 0)], &[(0, 1, 1)]),
        13 => of(&[(6, 0, 1), (7, 0, 0)], &[(0, 1, 3)]),
        14 => of(&[(75, 0, 0), (75, 0, 0)], &[(0, 1, 4)]),
        15 => of(&[(6, 0, 1), (8, 0, 0), (8, 0, 1)], &[(0, 1, 2), (0, 2, 1)]),
        16 => of(&[(6, 0, 3), (6, 0, 0), (8, 0, 0), (8, 0, 0)], &[(0, 1, 1), (1, 2, 2), (1, 3, 1)]),
        17 => (vec![(6, 0, 1); 5], (0..5).map(|place| (place, (place + 1) % 5, 1)).collect()),
        _ => tree(random),
    }
}

/// Two to nine atoms, each bonded to one before it, and now and then one bond more, which closes a ring.
fn tree(random: &mut Random) -> Molecule {
    let size = 2 + random.below(8);
    let any = |random: &mut Random| {
        let Atom { element, mass, hydrogens } = atom(random);
        (element, mass, hydrogens)
    };
    let atoms = (0..size).map(|_| any(random)).collect();
    let mut bonds: Vec<(usize, usize, i32)> =
        (1..size).map(|place| (random.below(place), place, random.between(1, 4))).collect();
    if size > 2 && random.chance(40) && !bonds.iter().any(|&(one, other, _)| (one, other) == (0, size - 1)) {
        bonds.push((0, size - 1, random.between(1, 5)));
    }
    (atoms, bonds)
}

/// Atoms and bonds of one to nine small molecules, several of them often the same, with or without `A`
/// bonds.
pub fn small_groups(random: &mut Random) -> Structure {
    let molecules: Vec<Molecule> = match random.below(10) {
        0 => vec![small_molecule(random)],
        1..=5 => (0..2 + random.below(3)).map(|_| small_molecule(random)).collect(),
        6 | 7 => (0..4 + random.below(5)).map(|_| small_molecule(random)).collect(),
        _ => {
            let same = small_molecule(random);
            let mut molecules = vec![same; 2 + random.below(6)];
            molecules.push(small_molecule(random));
            molecules
        }
    };
    let mut made = side_by_side(random, &molecules);
    if random.chance(45) {
        let most = 1 + random.below(6);
        bind_loosely(random, &mut made, most);
    }
    made
}

/// The molecules with their atoms numbered in turn, backwards, first atoms first, or in any order.
fn side_by_side(random: &mut Random, molecules: &[Molecule]) -> Structure {
    let mut atoms = Vec::new();
    let mut ends = Vec::new();
    let mut places = Vec::new();
    for (members, bonds) in molecules {
        let from = atoms.len();
        atoms.extend(members.iter().map(|&(element, mass, hydrogens)| Atom { element, mass, hydrogens }));
        ends.extend(bonds.iter().map(|&(one, other, kind)| (from + one, from + other, kind)));
        places.extend(0..members.len());
    }
    let mut order: Vec<usize> = (0..atoms.len()).collect();
    match random.below(6) {
        0 | 1 => {}
        2 => order.reverse(),
        3 => order.sort_by_key(|&atom| places[atom]),
        _ => random.shuffle(&mut order),
    }
    numbered(&atoms, &ends, &order)
}

/// Atoms and bonds with the atoms in another order: the first of it becomes atom 1.
fn numbered(atoms: &[Atom], ends: &[(usize, usize, i32)], order: &[usize]) -> Structure {
    let mut numbers = vec![0; atoms.len()];
    for (&atom, number) in order.iter().zip(1..) {
        numbers[atom] = number;
    }
    let bond = |&(one, other, kind): &(usize, usize, i32)| {
        let (one, other): (i32, i32) = (numbers[one], numbers[other]);
        Bond { lower: one.min(other), higher: one.max(other), kind }
    };
    let atoms = order.iter().map(|&atom| atoms[atom]).collect();
    Structure { atoms, bonds: ends.iter().map(bond).collect(), ..Structure::default() }
}

/// Some `A` bonds more between atoms that have none: of any two, or of one as a metal has them.
fn bind_loosely(random: &mut Random, content: &mut Structure, most: usize) {
    let count = content.atoms.len() as i32;
    let any = random.between(1, count);
    let metal = random.chance(40).then(|| *random.pick(&[&1, &count, &any]));
    for _ in 0..most {
        let one = metal.unwrap_or_else(|| random.between(1, count));
        let other = random.between(1, count);
        let (lower, higher) = (one.min(other), one.max(other));
        let is_free = !content.bonds.iter().any(|bond| (bond.lower, bond.higher) == (lower, higher));
        if lower < higher && is_free && content.bonds.len() < BONDS {
            content.bonds.push(Bond { lower, higher, kind: LOOSE });
        }
    }
}

/// Atoms and bonds of 12 to 256 atoms, in one group, in many, or each alone.
pub fn large_groups(random: &mut Random) -> Structure {
    let count = *random.pick(&[&ATOMS, &ATOMS, &255, &130, &64, &33, &20, &12]);
    let ends = large_ends(random, count);
    let same =
        random.chance(40).then(|| *random.pick(&[&(10, 0, 0), &(1, 0, 0), &(72, 300, 15), &(8, 0, 2)]));
    let atom = |random: &mut Random| match same {
        Some((element, mass, hydrogens)) => Atom { element, mass, hydrogens },
        None => atom(random),
    };
    let atoms: Vec<Atom> = (0..count).map(|_| atom(random)).collect();
    // few `A` among the bonds cut a long chain, many leave little of it
    let loose = *random.pick(&[&0, &0, &3, &30]);
    let kind = |random: &mut Random| if random.chance(loose) { LOOSE } else { random.between(1, 4) };
    let ends: Vec<(usize, usize, i32)> =
        ends.into_iter().map(|(one, other)| (one, other, kind(random))).collect();
    let mut order: Vec<usize> = (0..count).collect();
    match random.below(5) {
        0 | 1 => {}
        2 => order.reverse(),
        _ => random.shuffle(&mut order),
    }
    let mut made = numbered(&atoms, &ends, &order);
    if random.chance(30) {
        let most = *random.pick(&[&3, &40, &BONDS]);
        bind_loosely(random, &mut made, most);
    }
    made
}

/// Which atoms are bonded, by their places: none; a chain, in turn or from both ends; pairs one within
/// another, apart or joined one by one; pairs as far apart as half of the atoms; a star at the last atom;
/// chains that take turns; threes; or all that a list holds.
fn large_ends(random: &mut Random, count: usize) -> Vec<(usize, usize)> {
    let step = 2 + random.below(6);
    let nested = (0..count / 2).map(|place| (place, count - 1 - place));
    match random.below(11) {
        0 | 1 => Vec::new(),
        2 => (1..count).map(|place| (place - 1, place)).collect(),
        3 => (1..count).map(|place| ((place - 1) / 2, count - 1 - place / 2)).collect(),
        4 => nested.collect(),
        5 => (0..count / 2).map(|place| (place, place + count / 2)).collect(),
        6 => (0..count - 1).step_by(step - 1).map(|place| (place, count - 1)).collect(),
        7 => (step..count).map(|place| (place - step, place)).collect(),
        8 => (2..count).step_by(3).flat_map(|place| [(place - 2, place - 1), (place - 2, place)]).collect(),
        // the innermost pair is joined first, so that each of the others brings a lower atom
        9 => nested.chain((count / 2 + 1..count).map(|place| (place - 1, place))).collect(),
        _ => full_ends(step, count),
    }
}

/// As many bonds as a list holds, in groups that take turns: atoms a step apart, then two steps, and on.
fn full_ends(step: usize, count: usize) -> Vec<(usize, usize)> {
    let apart = (1..).map(|times| step * times).take_while(|apart| *apart < count);
    let ends = apart.flat_map(|apart| (apart..count).map(move |place| (place - apart, place)));
    ends.take(BONDS).collect()
}
