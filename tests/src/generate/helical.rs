//! Blocks, tables and transfer files with STEREOMOLECULE: request L4. Sound blocks of a random structure,
//! and ones that are damaged in the record; tables with number 13 set, sound or not.

use super::blocks::spelt;
use super::coordinates::coordinates;
use super::damage::damaged;
use super::damage_helical::damaged_helical;
use super::random::Random;
use super::structures::{made_helical, structure};
use super::tables::{lengthen, placed_table, roomed, TableCase};
use crate::independent::lines::{label, lines, Label};
use crate::independent::table::{HELICAL_AT, NUMBERS};
use crate::independent::{read_table, write, Answer};

/// A block with the label, sound or not; every refusal that can arise by it comes often.
pub fn helical_block(random: &mut Random) -> Vec<u8> {
    let block = sound_helical_block(random);
    match random.below(100) {
        0..=24 => block,
        25..=84 => damaged_helical(random, &block),
        85..=92 => damaged(random, &block),
        _ => {
            let once = damaged_helical(random, &block);
            damaged(random, &once)
        }
    }
}

/// A block with the YES that is accepted; some have coordinates.
pub fn sound_helical_block(random: &mut Random) -> Vec<u8> {
    let mut content = made_helical(structure(random));
    if random.chance(25) {
        content.coordinates = coordinates(random, content.atoms.len() as i32);
    }
    spelt(random, &content)
}

/// Whether a block has the label.
pub fn has_helical(block: &[u8]) -> bool {
    lines(block, 0).any(|line| label(line.bytes) == Some(Label::Stereomolecule))
}

/// The block with the label misspelt, and so skipped; every byte stays at its place.
fn misspelt(block: &[u8]) -> Vec<u8> {
    let mut bytes = block.to_vec();
    for line in lines(block, 0).filter(|line| label(line.bytes) == Some(Label::Stereomolecule)) {
        let letter = line.bytes.iter().position(u8::is_ascii_alphabetic).expect("a letter of the label");
        bytes[line.start + letter] = b'X';
    }
    bytes
}

/// Which of its refusals the record gave to a block: the answer is another one where the label is
/// misspelt.
pub fn refused_by_helical(block: &[u8], answer: Answer) -> Option<&'static str> {
    let is_early = answer.number <= 2;
    if is_early || !has_helical(block) || read_table(&misspelt(block), &mut [0; NUMBERS]) == answer {
        return None;
    }
    let line = lines(block, answer.place).next().and_then(|line| label(line.bytes));
    Some(match (answer.number, line) {
        (6, _) => "6",
        (9, Some(Label::End)) => "9 at END",
        (13, Some(Label::End)) => "13 at END",
        (9, _) => "9 on a row",
        other => panic!("STEREOMOLECULE gave {other:?}: {}", block.escape_ascii()),
    })
}

/// Whether a table is refused 21 by its number 13: with a 0 there it is not.
pub fn refused_by_number_13(table: &[i32], texts: &[u8]) -> Option<&'static str> {
    let unsound = |table: &[i32]| write(table, texts, &mut []).number == 21;
    if !unsound(table) {
        return None;
    }
    let mut without = table.to_vec();
    without[HELICAL_AT] = 0;
    (!unsound(&without)).then_some("21 by number 13")
}

/// A sound table with number 13 set, and its texts.
fn sound_helical_table(random: &mut Random) -> (Vec<i32>, Vec<u8>) {
    if random.chance(40) {
        let block = sound_helical_block(random);
        let mut table = vec![0; NUMBERS];
        assert_eq!(read_table(&block, &mut table).number, 0, "refused: {}", block.escape_ascii());
        return (table, block);
    }
    let content = made_helical(structure(random));
    placed_table(random, content)
}

/// A table with number 13 set: as it should be, beside centres and pairs, to another number, or with 14
/// or 15 set too; some forms as long as allowed, or longer.
pub fn helical_table_case(random: &mut Random) -> TableCase {
    let (mut table, mut texts) = sound_helical_table(random);
    match random.below(20) {
        0..=6 => {}
        7..=10 => (table, texts) = beside_rows(random),
        11..=14 => table[HELICAL_AT] = other_number(random),
        15 | 16 => table[14 + random.below(2)] = *random.pick(&[&1, &-1, &2, &i32::MIN, &i32::MAX]),
        17 | 18 => lengthen(random, &mut table, &mut texts),
        _ => table[HELICAL_AT] = 0,
    }
    roomed(random, table, texts)
}

/// A number that 13 may not be.
fn other_number(random: &mut Random) -> i32 {
    *random.pick(&[&2, &-1, &3, &i32::MIN, &i32::MAX, &256, &257, &65_536, &65_537, &0x0100_0000, &-2])
}

/// A sound table with centres, pairs or both, and number 13 set all the same.
fn beside_rows(random: &mut Random) -> (Vec<i32>, Vec<u8>) {
    loop {
        let content = structure(random);
        if content.centres.len() + content.pairs.len() > 0 {
            let (mut table, texts) = placed_table(random, content);
            table[HELICAL_AT] = 1;
            return (table, texts);
        }
    }
}
