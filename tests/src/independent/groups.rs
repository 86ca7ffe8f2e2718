//! The groups of a structure: request L1, "each group of atoms joined by S, D, T or Q bonds, `A` not
//! counting". From an atom one goes to its neighbours, from these to theirs, until no new one is met.

use super::table::{Bond, Structure};
use std::collections::VecDeque;

/// The atoms of each group, ascending; the groups "in order of their lowest atom".
pub fn groups(structure: &Structure) -> Vec<Vec<usize>> {
    let neighbours = neighbours(structure);
    let mut is_met = vec![false; structure.atoms.len() + 1];
    let mut groups = Vec::new();
    for atom in 1..=structure.atoms.len() {
        // an atom not met so far is the lowest of its group
        if !is_met[atom] {
            groups.push(reached(atom, &neighbours, &mut is_met));
        }
    }
    groups
}

/// S, D, T and Q are the kinds 1 to 4.
pub fn joins(bond: &Bond) -> bool {
    (1..=4).contains(&bond.kind)
}

/// For each atom by its number, those that a bond joins to it; nothing stands at 0.
fn neighbours(structure: &Structure) -> Vec<Vec<usize>> {
    let mut neighbours = vec![Vec::new(); structure.atoms.len() + 1];
    for bond in structure.bonds.iter().filter(|bond| joins(bond)) {
        let (lower, higher) = (bond.lower as usize, bond.higher as usize);
        neighbours[lower].push(higher);
        neighbours[higher].push(lower);
    }
    neighbours
}

/// Every atom that can be reached from one, itself too.
fn reached(from: usize, neighbours: &[Vec<usize>], is_met: &mut [bool]) -> Vec<usize> {
    let mut group = Vec::new();
    let mut waiting = VecDeque::from([from]);
    is_met[from] = true;
    while let Some(atom) = waiting.pop_front() {
        group.push(atom);
        for &neighbour in &neighbours[atom] {
            if !is_met[neighbour] {
                is_met[neighbour] = true;
                waiting.push_back(neighbour);
            }
        }
    }
    group.sort();
    group
}
