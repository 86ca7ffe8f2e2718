//! Blocks with coordinates: request L2. Sound ones of a random structure, and ones that are damaged in
//! the three records.

use super::blocks::spelt;
use super::damage::damaged;
use super::damage_coordinates::damaged_coordinates;
use super::random::Random;
use super::structures::structure;
use crate::independent::coordinates::{CoordinateRow, Coordinates, Factor};
use crate::independent::lines::{label, lines, Label};
use crate::independent::Answer;

/// A block with the three records, sound or not; every refusal that can arise in them comes often.
pub fn coordinate_block(random: &mut Random) -> Vec<u8> {
    let block = sound_coordinate_block(random);
    match random.below(100) {
        0..=29 => block,
        30..=79 => damaged_coordinates(random, &block),
        80..=89 => damaged(random, &block),
        _ => {
            let once = damaged_coordinates(random, &block);
            damaged(random, &once)
        }
    }
}

/// A block with the three records that is accepted.
pub fn sound_coordinate_block(random: &mut Random) -> Vec<u8> {
    let mut content = structure(random);
    content.coordinates = coordinates(random, content.atoms.len() as i32);
    spelt(random, &content)
}

/// The refusal number of an answer, if a line of the three records gave it, or if it is one of theirs
/// at END.
pub fn refused_by_coordinates(block: &[u8], Answer { number, place }: Answer) -> Option<u32> {
    let theirs = match number {
        0..=2 | 16 => false,
        41 | 42 => true,
        _ => record_at(block, place).is_some_and(is_of_coordinates),
    };
    theirs.then_some(number)
}

/// Whether a block has one of the three records.
pub fn has_coordinates(block: &[u8]) -> bool {
    let mut labels = lines(block, 0).filter_map(|line| label(line.bytes));
    labels.any(is_of_coordinates)
}

fn is_of_coordinates(label: Label) -> bool {
    matches!(label, Label::MaxXyz | Label::XyzFactor | Label::Xyz)
}

/// The record in which the line at a place stands; for a label line its own.
fn record_at(block: &[u8], place: usize) -> Option<Label> {
    let labels = lines(block, 0).take_while(|line| line.start <= place).filter_map(|line| label(line.bytes));
    labels.last()
}

/// Coordinates of some of so many atoms, within their MAX_XYZ.
pub fn coordinates(random: &mut Random, atoms: i32) -> Coordinates {
    let share = *random.pick(&[&100, &100, &100, &60, &30, &0]);
    let sizes = *random.pick(&[&9, &99, &2_000, &99_999, &999_999]);
    let chosen: Vec<i32> = (1..=atoms).filter(|_| random.chance(share)).collect();
    let row = |atom| CoordinateRow { atom, values: [0, 1, 2].map(|_| value(random, sizes)) };
    let rows: Vec<CoordinateRow> = chosen.into_iter().map(row).collect();
    let largest = rows.iter().flat_map(|row| row.values).map(i32::abs).max().unwrap_or(0);
    let most = if random.chance(60) { largest } else { random.between(largest, 999_999) };
    Coordinates { most: Some(most), factor: Some(factor(random)), rows }
}

/// A row's value of at most a size, often an end or 0.
fn value(random: &mut Random, size: i32) -> i32 {
    match random.below(8) {
        0 => 0,
        1 => size,
        2 => -size,
        _ => random.between(-size, size),
    }
}

/// Factors as programs write them, at the ends, and of any digits.
fn factor(random: &mut Random) -> Factor {
    let (digits, decimals) = match random.below(10) {
        0 => (1, 3),
        1 => (1, 4),
        2 => (1, 0),
        3 => (5, 1),
        4 => (1, 9),
        5 => (123_456_789, 9),
        6 => (999_999_999, random.below(10) as u32),
        _ => {
            let limit = 10usize.pow(1 + random.below(9) as u32);
            (1 + random.below(limit - 1) as i64, random.below(10) as u32)
        }
    };
    Factor { digits, decimals }
}
