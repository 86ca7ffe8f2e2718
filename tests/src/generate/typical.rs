//! Blocks as programs write them: what the benchmark reads. Typical ones of 6 to 24 atoms, ones of several
//! groups, ones that are handed as a whole, ones with coordinates, the largest, and the orders and rows that cost most.

use super::crowded::{each_atom, two_ends, Crowded};
use super::random::Random;
use super::structures::made_helical;
use crate::independent::table::{laid_out, Atom, Bond, Centre, Spread, Structure, LONGEST_BLOCK};
use crate::independent::write;

/// The kinds of bonds in molecules of one group, by how often they come.
const JOINING: [&i32; 6] = [&1, &1, &1, &1, &2, &3];

/// The same with `A`, which parts a molecule into groups.
const PARTING: [&i32; 6] = [&1, &1, &1, &1, &2, &5];

/// A block of 6 to 24 atoms in the written form: a chain with branches and rings, mostly of carbon.
pub fn typical_block(random: &mut Random) -> Vec<u8> {
    let content = typical_structure(random, &JOINING);
    written(random, content)
}

/// Such a block, of several groups mostly.
pub fn typical_fragment_block(random: &mut Random) -> Vec<u8> {
    let content = typical_structure(random, &PARTING);
    written(random, content)
}

/// Such a block with the YES of STEREOMOLECULE, and so without a centre.
pub fn typical_helical_block(random: &mut Random) -> Vec<u8> {
    let content = typical_structure(random, &JOINING);
    written(random, made_helical(content))
}

fn typical_structure(random: &mut Random, kinds: &[&i32]) -> Structure {
    let count = random.between(6, 24);
    let mut content =
        Structure { block_id: random.between(0, 1) * random.between(1, 999_999), ..Structure::default() };
    content.atoms = (0..count).map(|_| atom(random)).collect();
    content.bonds = bonds(random, count, kinds);
    if random.chance(20) {
        content.charges =
            vec![Spread { value: *random.pick(&[&-1, &1, &2]), atoms: vec![random.between(1, count)] }];
    }
    if random.chance(30) {
        let centre = random.between(1, count);
        content.centres = vec![Centre { atom: centre, descriptor: random.between(1, 2), group: 0 }];
    }
    content
}

fn atom(random: &mut Random) -> Atom {
    let element = *random.pick(&[&6, &6, &6, &6, &6, &6, &6, &7, &8, &8, &9, &16, &17]);
    let hydrogens = if element == 6 { random.between(0, 3) } else { random.between(0, 1) };
    Atom { element, mass: 0, hydrogens }
}

/// Each atom bound to one of the three before it, and some rings, ascending.
fn bonds(random: &mut Random, count: i32, kinds: &[&i32]) -> Vec<Bond> {
    let mut ends: Vec<(i32, i32)> =
        (2..=count).map(|atom| (random.between(1.max(atom - 3), atom - 1), atom)).collect();
    for _ in 0..random.below(3) {
        ends.push((1, random.between(5, count)));
    }
    ends.sort();
    ends.dedup();
    ends.into_iter().map(|(lower, higher)| Bond { lower, higher, kind: *random.pick(kinds) }).collect()
}

/// The written form with three short texts.
fn written(random: &mut Random, mut content: Structure) -> Vec<u8> {
    let title = format!("compound {}, batch {}", random.between(1, 99_999), random.between(1, 99));
    let texts = format!("{title}bench {}public domain", random.between(1, 9));
    let ends = [0, title.len(), title.len() + 7, texts.len()];
    content.texts = [0, 1, 2].map(|which| (ends[which], ends[which + 1] - ends[which]));
    let mut buffer = vec![0; LONGEST_BLOCK];
    let written = write(&laid_out(&content), texts.as_bytes(), &mut buffer);
    assert_eq!(written.number, 0, "a typical block is not written: {content:?}");
    buffer.truncate(written.count);
    buffer
}

/// A block of 20 to 30 atoms with coordinates of each, in units of 0.0001 Angstrom.
pub fn typical_coordinate_block(random: &mut Random) -> Vec<u8> {
    let count = random.between(20, 30);
    let mut content = Structure::default();
    content.atoms = (0..count).map(|_| atom(random)).collect();
    content.bonds = bonds(random, count, &JOINING);
    let mut block = written(random, content);
    block.truncate(block.len() - "##END=\n".len());
    let values: Vec<[i32; 3]> =
        (0..count).map(|_| [0, 1, 2].map(|_| random.between(-99_999, 99_999))).collect();
    let most = values.iter().flatten().map(|value| value.abs()).max().unwrap_or(0);
    block.extend(format!("##MAX_XYZ= {most}\n##XYZ_FACTOR= 0.0001\n##XYZ=\n").bytes());
    for ([x, y, z], atom) in values.iter().zip(1..) {
        block.extend(format!("{atom} {x} {y} {z}\n").bytes());
    }
    block.extend(b"##END=\n");
    block
}

/// 256 atoms and 512 bonds, every row in order.
pub fn largest_block() -> Vec<u8> {
    let mut block = Crowded::with_atoms(256);
    block.bonds = two_ends(256, 512, "S");
    block.block()
}

/// Every list of the structure table full, every row in order.
pub fn full_block() -> Vec<u8> {
    let mut block = Crowded::with_atoms(256);
    block.bonds = two_ends(256, 512, "S");
    block.charges = each_atom(64, |atom| format!("+1 {atom}"));
    block.radicals = each_atom(64, |atom| format!("1 {atom}"));
    block.centres = each_atom(128, |atom| format!("{atom} P A"));
    block.pairs = two_ends(256, 128, "M b");
    block.block()
}

/// Blocks that ask most of one part of a reader, by name.
pub fn worst_blocks() -> Vec<(&'static str, Vec<u8>)> {
    let mut reversed = Crowded::with_atoms(256);
    reversed.bonds = two_ends(256, 512, "S");
    reversed.bonds.reverse();
    let mut repeated = Crowded::with_atoms(33);
    repeated.bonds = two_ends(33, 512, "S");
    repeated.bonds.extend(vec!["9 8 S".to_string(); 4_500]);
    let mut members = Crowded::with_atoms(256);
    members.charges = vec![format!("+1{}", " 1".repeat(10_000))];
    let entries = Crowded::with_atoms(250).block();
    let entries = String::from_utf8_lossy(&entries).replace("= H250", &format!("={}", " D".repeat(8_000)));
    let long = Crowded::with_atoms(1).block();
    let long = String::from_utf8_lossy(&long).replace("= t", &format!("= {}", "a b c d ".repeat(4_000)));
    vec![
        ("512 bonds, the last first", reversed.block()),
        ("a bond repeated 4,500 times", repeated.block()),
        ("a charge of 10,000 members", members.block()),
        ("a formula of 8,000 entries", entries.into_bytes()),
        ("a title of 32,000 bytes", long.into_bytes()),
    ]
}
