//! The generator's shares of several groups, and that its tables and blocks for request L1 have every
//! shape.

use galebonnet_tests::generate::fragments::{sound_fragment_block, sound_fragment_table, told_by_fragments};
use galebonnet_tests::generate::{self, Random, TableCase};
use galebonnet_tests::independent::groups::groups;
use galebonnet_tests::independent::table::Structure;
use galebonnet_tests::independent::writing::taken_out;
use galebonnet_tests::independent::{check, read_table, write};
use std::collections::BTreeMap;

/// How often each number is answered to some tables, and what their groups decide.
fn told(random: &mut Random, cases: usize, table: fn(&mut Random) -> TableCase) -> BTreeMap<String, usize> {
    let mut counts: BTreeMap<String, usize> = BTreeMap::new();
    for _ in 0..cases {
        let case = table(random);
        let written = write(&case.table, &case.texts, &mut vec![0; case.room]);
        *counts.entry(written.number.to_string()).or_default() += 1;
        for one in told_by_fragments(&case.table, &case.texts) {
            *counts.entry(one.to_string()).or_default() += 1;
        }
    }
    counts
}

#[test]
fn half_of_the_tables_and_two_thirds_of_the_accepted_blocks_have_several_groups() {
    let mut random = Random::new(11);
    let counts = told(&mut random, 10_000, generate::table_case);
    println!("tables by their fragments: {counts:?}");
    assert!((4_300..=5_300).contains(&counts["several groups"]), "{counts:?}");
    assert!((1_000..=1_800).contains(&counts["A between groups"]), "{counts:?}");
    assert!((100..=400).contains(&counts["23 by the fragments"]), "{counts:?}");
    let [mut accepted, mut several] = [0; 2];
    for _ in 0..10_000 {
        let mut table = vec![0; 3856];
        if read_table(&generate::block(&mut random), &mut table).number == 0 {
            accepted += 1;
            several += usize::from(groups(&taken_out(&table)).len() > 1);
        }
    }
    assert!((60..=75).contains(&(100 * several / accepted)), "{several} of {accepted} accepted blocks");
}

#[test]
fn three_hundred_tables_of_several_groups_have_every_answer_of_theirs() {
    for seed in 0..20 {
        let counts = told(&mut Random::new(seed), 300, generate::fragment_table_case);
        let comes = |one: &&str| counts.get(*one).is_some_and(|&count| count >= 5);
        let all = ["0", "21", "22", "23", "several groups", "A between groups", "23 by the fragments"];
        assert!(all.iter().all(comes), "seed {seed}: {counts:?}");
        assert!(counts["several groups"] >= 210, "seed {seed}: {counts:?}");
    }
}

/// The shapes of a structure that are asked for below.
fn shapes(content: &Structure) -> [(&'static str, bool); 9] {
    let groups = groups(content);
    let takes_turns = |two: &[Vec<usize>]| two[0].last() > two[1].first();
    let atom = |atom: &usize| &content.atoms[atom - 1];
    let joining = content.bonds.iter().filter(|bond| bond.kind != 5).count();
    [
        ("256 atoms in one group", content.atoms.len() == 256 && groups.len() == 1),
        ("256 groups", groups.len() == 256),
        ("512 bonds", content.bonds.len() == 512),
        ("groups that take turns", groups.windows(2).any(takes_turns)),
        ("the same atom again", content.atoms.windows(2).any(|two| two[0] == two[1])),
        ("a lone H", groups.iter().any(|group| group.len() == 1 && atom(&group[0]).element == 1)),
        (
            "hydrogens in each of several groups",
            groups.len() > 1 && groups.iter().all(|group| group.iter().any(|one| atom(one).hydrogens > 0)),
        ),
        ("a ring", joining + groups.len() > content.atoms.len()),
        ("pairs beside several groups", groups.len() > 1 && !content.pairs.is_empty()),
    ]
}

#[test]
fn tables_of_several_groups_have_every_shape() {
    let mut random = Random::new(12);
    let mut counts: BTreeMap<&str, usize> = BTreeMap::new();
    for _ in 0..10_000 {
        let content = taken_out(&sound_fragment_table(&mut random).0);
        for (shape, is_found) in shapes(&content) {
            *counts.entry(shape).or_default() += usize::from(is_found);
        }
    }
    println!("shapes: {counts:?}");
    assert!(counts.values().all(|&count| count >= 10), "{counts:?}");
}

#[test]
fn sound_blocks_of_several_groups_are_accepted() {
    let mut random = Random::new(13);
    let mut parted = 0;
    for _ in 0..5_000 {
        let block = sound_fragment_block(&mut random);
        assert_eq!(check(&block), 0, "refused: {}", block.escape_ascii());
        let text = String::from_utf8_lossy(&block);
        parted += usize::from(text.contains('*'));
    }
    assert!(parted > 2_000, "only {parted} of 5,000 formulas have several fragments");
}
