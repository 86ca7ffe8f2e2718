//! The generator is deterministic, its sound blocks are accepted, and every answer comes often.

use galebonnet_tests::generate::coordinates::{
    has_coordinates, refused_by_coordinates, sound_coordinate_block,
};
use galebonnet_tests::generate::helical::{
    has_helical, refused_by_helical, refused_by_number_13, sound_helical_block,
};
use galebonnet_tests::generate::tables::sound_table;
use galebonnet_tests::generate::{self, Random};
use galebonnet_tests::independent::{check, read, read_table, write};
use std::collections::BTreeMap;

#[test]
fn every_refusal_comes_often() {
    let mut random = Random::new(1);
    let mut counts: BTreeMap<u64, usize> = BTreeMap::new();
    let mut small = 0;
    for _ in 0..20_000 {
        let block = generate::block(&mut random);
        *counts.entry(check(&block) >> 32).or_default() += 1;
        small += usize::from(block.len() <= 1500);
    }
    println!("refusals: {counts:?}, small blocks: {small}");
    for number in [0, 41, 42].into_iter().chain(3..=17) {
        let count = counts.get(&number).copied().unwrap_or(0);
        assert!(count >= 200, "refusal {number} came only {count} times: {counts:?}");
    }
    assert!(small >= 19_000, "only {small} small blocks");
}

#[test]
fn sound_blocks_are_accepted() {
    let mut random = Random::new(2);
    let mut lengths = Vec::new();
    for _ in 0..20_000 {
        let block = generate::sound_block(&mut random);
        assert_eq!(check(&block), 0, "refused: {}", block.escape_ascii());
        lengths.push(block.len());
    }
    lengths.sort();
    assert!(lengths[19_000] <= 1500, "a twentieth of the sound blocks is over 1,500 bytes");
}

#[test]
fn about_a_quarter_of_the_blocks_has_coordinates() {
    let mut random = Random::new(6);
    let blocks = (0..10_000).map(|_| generate::block(&mut random));
    let share = blocks.filter(|block| has_coordinates(block)).count();
    assert!((2_000..=3_000).contains(&share), "{share} of 10,000");
    for _ in 0..10_000 {
        let block = sound_coordinate_block(&mut random);
        assert!(check(&block) == 0 && has_coordinates(&block), "refused: {}", block.escape_ascii());
    }
}

#[test]
fn three_hundred_blocks_with_coordinates_have_every_refusal_of_theirs() {
    for seed in 0..20 {
        let mut random = Random::new(seed);
        let mut counts: BTreeMap<u32, usize> = BTreeMap::new();
        for _ in 0..300 {
            let block = generate::coordinate_block(&mut random);
            let answer = read_table(&block, &mut [0; 3856]);
            if let Some(number) = refused_by_coordinates(&block, answer) {
                *counts.entry(number).or_default() += 1;
            }
        }
        let comes = |number: &u32| counts.get(number).is_some_and(|&count| count >= 5);
        assert!([9, 10, 11, 13, 41, 42].iter().all(comes), "seed {seed}: {counts:?}");
    }
}

#[test]
fn a_tenth_to_a_sixth_of_what_is_sound_is_helical() {
    let mut random = Random::new(9);
    let blocks = (0..10_000).map(|_| generate::sound_block(&mut random));
    let share = blocks.filter(|block| has_helical(block)).count();
    assert!((1_000..=1_667).contains(&share), "{share} of 10,000 sound blocks");
    let tables = (0..10_000).map(|_| sound_table(&mut random));
    let share = tables.filter(|(table, _)| table[13] == 1).count();
    assert!((1_000..=1_667).contains(&share), "{share} of 10,000 sound tables");
    let blocks = (0..10_000).map(|_| generate::block(&mut random));
    let share = blocks.filter(|block| has_helical(block)).count();
    assert!((1_500..=2_500).contains(&share), "{share} of 10,000 blocks");
}

#[test]
fn sound_helical_blocks_are_accepted_in_every_spelling() {
    let mut random = Random::new(10);
    let [mut below, mut beside_labels, mut with_coordinates] = [0; 3];
    for _ in 0..10_000 {
        let block = sound_helical_block(&mut random);
        let mut table = vec![0; 3856];
        assert_eq!(read_table(&block, &mut table).number, 0, "refused: {}", block.escape_ascii());
        assert_eq!((table[4], table[5], table[13]), (0, 0, 1), "{}", block.escape_ascii());
        let text = String::from_utf8_lossy(&block);
        below += usize::from(text.lines().any(|line| line.trim_start().starts_with("YES")));
        beside_labels += usize::from(text.contains("##STEREOCENTER=") && text.contains("##STEREOPAIR="));
        with_coordinates += usize::from(has_coordinates(&block));
    }
    assert!(below > 4_000, "only {below} with the YES below the label line");
    assert!(beside_labels > 200, "only {beside_labels} beside both labels of centres and pairs");
    assert!(with_coordinates > 2_000, "only {with_coordinates} with coordinates");
}

#[test]
fn three_hundred_helical_blocks_and_ninety_tables_have_every_refusal_of_theirs() {
    for seed in 0..20 {
        let mut random = Random::new(seed);
        let mut counts: BTreeMap<&str, usize> = BTreeMap::new();
        for _ in 0..300 {
            let block = generate::helical_block(&mut random);
            let answer = read_table(&block, &mut [0; 3856]);
            if let Some(refusal) = refused_by_helical(&block, answer) {
                *counts.entry(refusal).or_default() += 1;
            }
        }
        for _ in 0..90 {
            let case = generate::helical_table_case(&mut random);
            if let Some(refusal) = refused_by_number_13(&case.table, &case.texts) {
                *counts.entry(refusal).or_default() += 1;
            }
        }
        let comes = |refusal: &&str| counts.get(refusal).is_some_and(|&count| count >= 5);
        let all = ["6", "9 at END", "9 on a row", "13 at END", "21 by number 13"];
        assert!(all.iter().all(comes), "seed {seed}: {counts:?}");
    }
}

#[test]
fn every_answer_of_the_writer_comes_often() {
    let mut random = Random::new(3);
    let mut counts: BTreeMap<u32, usize> = BTreeMap::new();
    for _ in 0..3_000 {
        let case = generate::table_case(&mut random);
        let written = write(&case.table, &case.texts, &mut vec![0; case.room]);
        *counts.entry(written.number).or_default() += 1;
    }
    println!("writer's answers: {counts:?}");
    assert_eq!(counts.keys().copied().collect::<Vec<u32>>(), [0, 1, 21, 22, 23]);
    assert!(counts.values().all(|&count| count >= 150), "{counts:?}");
    let mut counts: BTreeMap<u32, usize> = BTreeMap::new();
    for _ in 0..3_000 {
        let case = generate::helical_table_case(&mut random);
        let written = write(&case.table, &case.texts, &mut vec![0; case.room]);
        *counts.entry(written.number).or_default() += 1;
    }
    println!("writer's answers to tables with number 13: {counts:?}");
    assert_eq!(counts.keys().copied().collect::<Vec<u32>>(), [0, 21, 22, 23]);
    assert!(counts.values().all(|&count| count >= 100), "{counts:?}");
}

#[test]
fn the_same_seed_gives_the_same_inputs() {
    let inputs = |seed: u64| {
        let mut random = Random::new(seed);
        let blocks: Vec<Vec<u8>> = (0..200).map(|_| generate::block(&mut random)).collect();
        let tables: Vec<_> = (0..50).map(|_| generate::table_case(&mut random)).collect();
        let files: Vec<Vec<u8>> = (0..50).map(|_| generate::file(&mut random)).collect();
        (blocks, tables, files)
    };
    assert!(inputs(7) == inputs(7), "the same seed gave other inputs");
    assert!(inputs(7) != inputs(8), "another seed gave the same inputs");
}

#[test]
fn tables_keep_what_is_not_their_own() {
    let mut random = Random::new(4);
    for _ in 0..500 {
        let block = generate::block(&mut random);
        let (mut table, mut positions) = (vec![5; 3860], vec![5.0; 1030]);
        let answer = read(&block, &mut table, &mut positions);
        assert_eq!((&table[3856..], &positions[1024..]), (&[5; 4][..], &[5.0; 6][..]));
        let cleared = table[..3856].iter().all(|&number| number == 0);
        let positions_cleared = positions[..1024].iter().all(|&float| float == 0.0);
        assert!(answer.number == 0 || (cleared && positions_cleared));
        for (numbers, floats) in [(3855, 1024), (3856, 1023), (3855, 1023)] {
            let (mut short, mut positions) = (vec![5; numbers], vec![5.0; floats]);
            assert_eq!(read(&block, &mut short, &mut positions).number, 1);
            assert!(short.iter().all(|&number| number == 5) && positions.iter().all(|&float| float == 5.0));
        }
    }
}

fn has_several_groups(table: &[i32], texts: &[u8]) -> bool {
    generate::fragments::told_by_fragments(table, texts).contains(&"several groups")
}

#[test]
fn the_benchmarks_blocks_are_what_they_are_called() {
    let mut random = Random::new(5);
    for _ in 0..2_000 {
        let block = generate::typical::typical_block(&mut random);
        let mut table = vec![0; 3856];
        assert_eq!(read_table(&block, &mut table).number, 0, "refused: {}", block.escape_ascii());
        assert!((6..=24).contains(&table[0]), "{} atoms", table[0]);
        assert!(!has_several_groups(&table, &block), "several groups: {}", block.escape_ascii());
    }
    let several = (0..2_000).filter(|_| {
        let block = generate::typical::typical_fragment_block(&mut random);
        let mut table = vec![0; 3856];
        assert_eq!(read_table(&block, &mut table).number, 0, "refused: {}", block.escape_ascii());
        has_several_groups(&table, &block)
    });
    assert!(several.count() > 1_500);
    for _ in 0..500 {
        let block = generate::typical::typical_coordinate_block(&mut random);
        let (mut table, mut positions) = (vec![0; 3856], vec![0.0; 1024]);
        assert_eq!(read(&block, &mut table, &mut positions).number, 0, "refused: {}", block.escape_ascii());
        let given = positions.chunks_exact(4).filter(|position| position[0] == 1.0).count();
        assert!((20..=30).contains(&table[0]) && given == table[0] as usize, "{given} positions");
    }
    let mut table = vec![0; 3856];
    assert_eq!(read_table(&generate::typical::largest_block(), &mut table).number, 0);
    assert_eq!(table[..6], [256, 512, 0, 0, 0, 0]);
    assert_eq!(read_table(&generate::typical::full_block(), &mut table).number, 0);
    assert_eq!(table[..6], [256, 512, 64, 64, 128, 128]);
    let worst = generate::typical::worst_blocks();
    let answers: Vec<(usize, u64)> =
        worst.iter().map(|(_, block)| (block.len(), check(block) >> 32)).collect();
    assert_eq!(answers.iter().map(|answer| answer.1).collect::<Vec<u64>>(), [0, 0, 13, 15, 0]);
    assert!(answers[1..].iter().all(|answer| answer.0 > 15_000 && answer.0 <= 32_768), "{answers:?}");
}
