//! The stored run of the program `cases` is what the generator and the independent reader give now.

use galebonnet_tests::generate::cases::{case_input, cases};
use galebonnet_tests::independent::case_lines;
use std::collections::BTreeSet;
use std::fs;

/// The program reads its input whole into a fixed room.
const MOST_BYTES: usize = 1_048_576;

#[test]
fn the_stored_run_is_the_independent_one() {
    let input = case_input();
    assert!(input.len() <= MOST_BYTES, "{} bytes", input.len());
    let stored = fs::read("../crates/cases/stdin").expect("the stored input");
    assert!(
        stored == input,
        "crates/cases/stdin is another input: run the bin `cases` and look at the change"
    );
    let lines = fs::read_to_string("../crates/cases/stdout").expect("the stored output");
    assert_eq!(lines, case_lines(&input));
}

#[test]
fn every_refusal_from_1_on_occurs_under_names_that_stand_once() {
    let numbers: BTreeSet<String> = case_lines(&case_input())
        .lines()
        .filter_map(|line| line.split(' ').next().map(str::to_string))
        .collect();
    let all: BTreeSet<String> = (0..=17).chain(41..=42).map(|number| number.to_string()).collect();
    assert_eq!(numbers, all);
    let names: BTreeSet<String> = cases().into_iter().map(|case| case.name).collect();
    assert_eq!(names.len(), cases().len());
}

/// The answers that document 01 and request L4 give in words.
#[test]
fn the_cases_of_document_01() {
    let expected = [
        ("256 atoms", "0 0 256 0"),
        ("charge 99", "0 0 1 0"),
        ("charge 100", "10 91 0 0"),
        ("charge 0", "10 91 0 0"),
        ("neon, line 76 `1 Ne\\n##CHARGE=\\n+1 1 1`", "13 91 0 0"),
        ("formula CO over C and O", "9 50 0 0"),
        ("formula C O over C and O", "0 0 2 0"),
        ("bond `1 2 S` after 512 bonds", "0 0 33 512"),
        ("repeated bonds beyond 512 rows", "0 0 33 512"),
        ("`+1 3 5` is one charge", "0 0 5 0"),
        ("64 charges, the last over two atoms", "0 0 65 0"),
        ("a hydrogen-bonded dimer in two fragments", "0 0 6 6"),
        ("a hydrogen-bonded dimer in one fragment", "0 0 6 6"),
        ("groups A and a", "0 0 2 0"),
        ("neon into a short table", "1 0 0 0"),
        ("32,769 bytes into a short table", "1 0 0 0"),
        ("STEREOMOLECULE below `YES`", "0 0 3 0"),
        ("STEREOMOLECULE behind `YESS`", "9 114 0 0"),
        ("END line with no value", "9 102 0 0"),
        ("END line with YES beside a centre, 42, 15", "13 172 0 0"),
    ];
    let lines = case_lines(&case_input());
    let named: Vec<(String, &str)> = cases().into_iter().map(|case| case.name).zip(lines.lines()).collect();
    for (name, line) in expected {
        let found = named.iter().find(|(other, _)| other == name).unwrap_or_else(|| panic!("no case {name}"));
        assert_eq!(found.1, line, "{name}");
    }
    let over = named.iter().find(|(name, _)| name == "257 atoms").expect("257 atoms");
    assert!(over.1.starts_with("14 "), "{}", over.1);
}
