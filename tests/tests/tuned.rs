//! The reader tuned by hand answers as the independent one does: number, place, every number of the
//! lent table and every bit of the lent positions.

use galebonnet_tests::generate::typical::{
    full_block, largest_block, typical_block, typical_coordinate_block, worst_blocks,
};
use galebonnet_tests::generate::{self, Random};
use galebonnet_tests::{independent, tuned};
use std::collections::BTreeSet;

/// Numbers and floats of long enough tables.
const LONG: (usize, usize) = (3856, 1024);

/// What stands in the lent positions before.
const FLOAT: f64 = -0.0;

/// Compares the two on one block, and answers the number.
fn same(name: &str, block: &[u8], (numbers, floats): (usize, usize)) -> u32 {
    let (mut table, mut positions) = (vec![-7; numbers], vec![FLOAT; floats]);
    let (mut wanted, mut wanted_positions) = (table.clone(), positions.clone());
    let answer = independent::read(block, &mut wanted, &mut wanted_positions);
    let read = tuned::read(block, &mut table, &mut positions);
    assert_eq!(read, (answer.number, answer.place), "{name}: {}", block.escape_ascii());
    assert!(table == wanted, "{name}, table: {}", block.escape_ascii());
    let same_bits =
        positions.iter().zip(&wanted_positions).all(|(one, other)| one.to_bits() == other.to_bits());
    assert!(same_bits, "{name}, positions: {}", block.escape_ascii());
    answer.number
}

#[test]
fn on_twenty_thousand_generated_blocks() {
    let mut random = Random::new(41);
    let mut numbers = BTreeSet::new();
    for index in 0..20_000 {
        let block = generate::block(&mut random);
        let lent = [LONG, LONG, LONG, (3860, 1030), (3855, 1024), (3856, 1023)][index % 6];
        numbers.insert(same("generated", &block, lent));
    }
    assert!([0, 1, 41, 42].into_iter().chain(3..=17).all(|number| numbers.contains(&number)), "{numbers:?}");
}

#[test]
fn on_twenty_thousand_blocks_with_coordinates() {
    let mut random = Random::new(43);
    for _ in 0..20_000 {
        same("generated with coordinates", &generate::coordinate_block(&mut random), LONG);
    }
}

#[test]
fn on_twenty_thousand_blocks_with_stereomolecule() {
    let mut random = Random::new(44);
    let mut helical = 0;
    for _ in 0..20_000 {
        let block = generate::helical_block(&mut random);
        same("generated with STEREOMOLECULE", &block, LONG);
        let mut table = [0; 3856];
        tuned::read(&block, &mut table, &mut [0.0; 1024]);
        helical += table[13];
    }
    assert!(helical > 4_000, "only {helical} tables with number 13 set");
}

#[test]
fn on_every_named_block() {
    for (name, block) in generate::limit_blocks() {
        same(&name, &block, LONG);
    }
    for case in generate::cases::cases() {
        same(&case.name, &case.block, (3856 - usize::from(case.short), 1024));
    }
}

#[test]
fn on_the_benchmarks_blocks() {
    let mut random = Random::new(42);
    for _ in 0..2_000 {
        let block = typical_block(&mut random);
        same("typical", &block, LONG);
        same("typical, damaged", &generate::damaged(&mut random, &block), LONG);
    }
    for _ in 0..1_000 {
        let block = typical_coordinate_block(&mut random);
        same("typical with coordinates", &block, LONG);
        same("typical with coordinates, damaged", &generate::damaged(&mut random, &block), LONG);
    }
    same("largest", &largest_block(), LONG);
    same("full", &full_block(), LONG);
    for (name, block) in worst_blocks() {
        same(name, &block, LONG);
    }
}
