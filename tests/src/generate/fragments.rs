//! Tables, blocks and files of several groups: request L1. Sound tables and slightly disturbed ones, forms
//! that are too long by their fragments alone, and blocks whose formula is parted in any way.

use super::blocks::spelt;
use super::damage::damaged;
use super::damage_records::with_value;
use super::molecules::{large_groups, small_groups};
use super::random::Random;
use super::structures::furnished;
use super::tables::{disturb, lengthen, placed_table, roomed, TableCase};
use crate::independent::groups::groups;
use crate::independent::lines::Label;
use crate::independent::reading;
use crate::independent::table::{Bond, Structure, BONDS_FROM, LONGEST_BLOCK, NUMBERS};
use crate::independent::writing::{form, formula, fragment, is_sound, taken_out};

/// A structure of several groups, now and then of one; one of twelve is made for its size.
pub fn fragment_structure(random: &mut Random) -> Structure {
    let bare = if random.below(12) == 0 { large_groups(random) } else { small_groups(random) };
    furnished(random, bare)
}

/// A block with such a structure, whose formula is parted as the groups are or otherwise.
pub fn sound_fragment_block(random: &mut Random) -> Vec<u8> {
    let content = fragment_structure(random);
    spelt(random, &content)
}

/// A block with such a structure, sound or not: reading goes by the totals, however they are parted.
pub fn fragment_block(random: &mut Random) -> Vec<u8> {
    let block = sound_fragment_block(random);
    match random.below(10) {
        0..=5 => block,
        6..=8 => with_other_fragments(random, &block),
        _ => damaged(random, &block),
    }
}

/// The block with its formula in the written form, in one lump, or with a fragment gone, twice, empty or
/// with a number before it.
fn with_other_fragments(random: &mut Random, block: &[u8]) -> Vec<u8> {
    let Ok(content) = reading::structure(block) else { return block.to_vec() };
    let formula = formula(&content);
    let mut fragments: Vec<String> = formula.split(" * ").map(str::to_string).collect();
    let chosen = random.below(fragments.len());
    match random.below(8) {
        0 => fragments.reverse(),
        1 => fragments = vec![fragment(&content.atoms)],
        2 if fragments.len() > 1 => drop(fragments.remove(chosen)),
        3 => fragments.push(fragments[chosen].clone()),
        4 => fragments[chosen].clear(),
        5 => fragments[chosen].insert_str(0, "2 "),
        6 => fragments[chosen].push_str(random.pick(&["2", " H", "*", " *", "* *"])),
        _ => {}
    }
    let parting = random.pick(&[" * ", "*", " *", "* ", "\t*  ", " . ", "**"]);
    with_value(block, Label::Molform, &fragments.join(parting))
}

/// A sound table of several groups, and its texts.
pub fn sound_fragment_table(random: &mut Random) -> (Vec<i32>, Vec<u8>) {
    if random.chance(25) {
        let block = sound_fragment_block(random);
        let mut table = vec![0; NUMBERS];
        let answer = reading::read_table(&block, &mut table);
        assert_eq!(answer.number, 0, "refused: {}", block.escape_ascii());
        return (table, block);
    }
    let content = fragment_structure(random);
    placed_table(random, content)
}

/// A table of several groups: sound, with other bonds, disturbed, or with a form as long as allowed or
/// longer.
pub fn fragment_table_case(random: &mut Random) -> TableCase {
    let (mut table, mut texts) = sound_fragment_table(random);
    match random.below(20) {
        0..=11 => {}
        12..=14 => pad(random, &mut table, &mut texts),
        15 | 16 => exchange_kinds(random, &mut table),
        17 => disturb_bond(random, &mut table),
        18 => disturb(random, &mut table, &mut texts),
        _ => lengthen(random, &mut table, &mut texts),
    }
    roomed(random, table, texts)
}

/// A title with which the form is about as long as allowed: the same atoms in one lump would mostly fit.
fn pad(random: &mut Random, table: &mut [i32], texts: &mut Vec<u8>) {
    let start = texts.len();
    texts.extend([b'a'; LONGEST_BLOCK]);
    table[7..9].copy_from_slice(&[start as i32, 1]);
    let content = taken_out(table);
    let gained = formula(&content).len() - fragment(&content.atoms).len();
    let over = match random.below(6) {
        0 => -1,
        1 | 2 => 0,
        3 => 1,
        4 => gained as i32,
        _ => random.between(0, gained as i32 + 1),
    };
    let length = form(&content, texts).len() as i32;
    table[8] = 1 + LONGEST_BLOCK as i32 - length + over;
}

/// The place of a bond's row.
fn bond_place(random: &mut Random, table: &[i32]) -> usize {
    BONDS_FROM + 3 * random.below(table[1] as usize)
}

/// Other kinds of some bonds: groups fall apart or grow together.
fn exchange_kinds(random: &mut Random, table: &mut [i32]) {
    for _ in 0..random.below(4) {
        let place = bond_place(random, table);
        if table[1] > 0 {
            table[place + 2] = random.between(1, 5);
        }
    }
}

/// A bond that no sound table has: of no kind, of no atom, to itself, or out of order.
fn disturb_bond(random: &mut Random, table: &mut [i32]) {
    let place = bond_place(random, table);
    match random.below(6) {
        _ if table[1] == 0 => table[BONDS_FROM + 2] = 1,
        0 => table[place + 2] = *random.pick(&[&0, &6, &-1, &i32::MAX, &i32::MIN, &257]),
        1 => table[place + 1] = table[0] + 1,
        2 => table[place + 1] = table[place],
        3 => table[place] = 0,
        4 => table.swap(place, place + 1),
        _ => table[1] -= 1,
    }
}

/// What request L1 decides in a sound table's form: its groups, `A` bonds between two of them, and that it
/// is too long where one lump would fit.
pub fn told_by_fragments(table: &[i32], texts: &[u8]) -> Vec<&'static str> {
    let mut told = Vec::new();
    if table.len() < NUMBERS || !is_sound(table, texts) {
        return told;
    }
    let content = taken_out(table);
    let groups = groups(&content);
    if groups.len() > 1 {
        told.push("several groups");
    }
    let group_of = |atom: i32| groups.iter().position(|group| group.contains(&(atom as usize)));
    let is_between = |bond: &Bond| bond.kind == 5 && group_of(bond.lower) != group_of(bond.higher);
    if content.bonds.iter().any(is_between) {
        told.push("A between groups");
    }
    let length = form(&content, texts).len();
    let in_one_lump = length - formula(&content).len() + fragment(&content.atoms).len();
    if length > LONGEST_BLOCK && in_one_lump <= LONGEST_BLOCK {
        told.push("23 by the fragments");
    }
    told
}
