//! Named fixed tables of request L1: as many groups as there can be, all atoms in one, every kind of bond,
//! full lists of bonds, and forms as long as allowed and one byte longer. As in `limits`, no answers stand
//! here.

use super::tables::TableCase;
use crate::independent::table::{laid_out, Atom, Bond, Structure, ATOMS, BONDS, LONGEST_BLOCK};
use crate::independent::writing::form;

type Ends = Vec<(i32, i32)>;

const LAST: i32 = ATOMS as i32;

/// Neon, and the atom that takes most bytes in a formula.
const NEON: Atom = Atom { element: 10, mass: 0, hydrogens: 0 };
const LONGEST: Atom = Atom { element: 103, mass: 300, hydrogens: 15 };

/// Every named table with its texts and a buffer.
pub fn fragment_limits() -> Vec<(String, TableCase)> {
    let mut cases = Vec::new();
    for (name, content) in structures() {
        cases.push((name, TableCase { table: laid_out(&content), texts: Vec::new(), room: LONGEST_BLOCK }));
    }
    for (name, content) in [
        ("two helium atoms", bonded(Atom { element: 2, ..NEON }, 2, &Vec::new(), 1)),
        ("256 atoms alone", bonded(LONGEST, LAST, &Vec::new(), 1)),
        ("two groups of 512 bonds", bonded(NEON, LAST, &turns(BONDS), 1)),
    ] {
        for length in [LONGEST_BLOCK - 1, LONGEST_BLOCK, LONGEST_BLOCK + 1] {
            for room in [length - 1, length] {
                let case = TableCase { room, ..titled(&content, length) };
                cases.push((format!("{name}, a form of {length} bytes in {room}"), case));
            }
        }
    }
    cases
}

/// The structure with a title with which its form has so many bytes.
fn titled(content: &Structure, length: usize) -> TableCase {
    let texts = vec![b'a'; length];
    let mut content = content.clone();
    content.texts[0] = (0, 1);
    content.texts[0].1 = 1 + length - form(&content, &texts).len();
    TableCase { table: laid_out(&content), texts, room: length }
}

/// So many of one atom, with bonds of one kind.
fn bonded(atom: Atom, count: i32, ends: &Ends, kind: i32) -> Structure {
    let bond = |&(one, other): &(i32, i32)| Bond { lower: one.min(other), higher: one.max(other), kind };
    Structure {
        atoms: vec![atom; count as usize],
        bonds: ends.iter().map(bond).collect(),
        ..Structure::default()
    }
}

/// So many bonds within the odd and within the even atoms: neighbours first, then the next but one.
fn turns(bonds: usize) -> Ends {
    let apart = |apart: i32| (1..=LAST - apart).map(move |atom| (atom, atom + apart));
    [2, 4, 6].into_iter().flat_map(apart).take(bonds).collect()
}

/// A chain whose next atom is the lowest and the highest in turn.
fn zigzag() -> Ends {
    let order: Vec<i32> = (1..=LAST / 2).flat_map(|atom| [atom, LAST + 1 - atom]).collect();
    order.windows(2).map(|two| (two[0], two[1])).collect()
}

/// 256 atoms bonded in each of several ways.
fn structures() -> Vec<(String, Structure)> {
    let chain: Ends = (1..LAST).map(|atom| (atom, atom + 1)).collect();
    let behind: Ends = (2..LAST).map(|atom| (atom, atom + 1)).chain([(1, LAST)]).collect();
    let nested: Ends = (1..=LAST / 2).map(|atom| (atom, LAST + 1 - atom)).collect();
    let ways: [(&str, Ends); 11] = [
        ("alone", Vec::new()),
        ("in a chain", chain.clone()),
        ("in a chain with the first at its end", behind),
        ("in a chain from both ends", zigzag()),
        ("at the first", (2..=LAST).map(|atom| (1, atom)).collect()),
        ("at the last", (1..LAST).map(|atom| (atom, LAST)).collect()),
        ("in pairs within pairs", nested.clone()),
        ("in pairs joined one by one", [&nested, &chain[LAST as usize / 2..]].concat()),
        ("in pairs far apart", (1..=LAST / 2).map(|atom| (atom, atom + LAST / 2)).collect()),
        ("taking turns with 512 bonds", turns(BONDS)),
        ("taking turns with 511 bonds and one between", [turns(BONDS - 1), vec![(255, 256)]].concat()),
    ];
    let mut cases: Vec<(String, Structure)> =
        ways.iter().map(|(name, ends)| (format!("256 atoms {name}"), bonded(NEON, LAST, ends, 1))).collect();
    for kind in 2..=5 {
        cases.push((format!("256 atoms in a chain of kind {kind}"), bonded(NEON, LAST, &chain, kind)));
    }
    let mut loose = bonded(NEON, LAST, &ways[10].1, 1);
    loose.bonds[BONDS - 1].kind = 5;
    cases.push(("256 atoms taking turns with 511 bonds and `A` between".to_string(), loose));
    cases
}
