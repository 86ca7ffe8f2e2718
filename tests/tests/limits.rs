//! The named cases: each name once, every refusal of the reader among them, limits as named; and the named
//! tables of several groups.

use galebonnet_tests::generate::{fragment_limits, limit_blocks};
use galebonnet_tests::independent::{check, write};
use std::collections::{BTreeMap, BTreeSet};

/// Cases at a limit and one over it, each with its refusal number.
const EXPECTED: [(&str, u64); 93] = [
    ("256 atoms", 0),
    ("257 atoms", 14),
    ("512 bonds", 0),
    ("513 bonds", 14),
    ("bond `1 2 S` after 512 bonds", 0),
    ("bond `1 2 D` after 512 bonds", 13),
    ("64 charge rows, then ``", 0),
    ("65 charge rows, then ``", 14),
    ("63 charge rows, then `+1`", 0),
    ("64 charge rows, then `+1`", 14),
    ("`1`, then 63 radical rows", 0),
    ("`1`, then 64 radical rows", 14),
    ("128 centres", 0),
    ("129 centres", 14),
    ("128 pairs", 0),
    ("129 pairs", 14),
    ("32768 bytes by the title", 0),
    ("32769 bytes by the title", 2),
    ("32769 bytes by blanks after END", 2),
    ("32768 bytes of 0", 3),
    ("charge 99", 0),
    ("charge 100", 10),
    ("charge 0", 10),
    ("charge -99", 0),
    ("charge -100", 10),
    ("radical 15", 0),
    ("radical 16", 10),
    ("radical 0", 10),
    ("hydrogens 15", 0),
    ("hydrogens 16", 10),
    ("mass 1 in both", 0),
    ("mass 300 in both", 0),
    ("mass 301 in both", 10),
    ("mass 0 in both", 10),
    ("mass 301 in a row", 10),
    ("count 9999", 15),
    ("count 10000", 10),
    ("count 0", 10),
    ("block id 1", 0),
    ("block id 999999", 0),
    ("block id 0", 10),
    ("block id 1000000", 9),
    ("charge 000099", 0),
    ("charge 0000099", 9),
    ("group z", 0),
    ("group 00", 9),
    ("one charge over 256 atoms", 0),
    ("MAX_XYZ ` 0`", 0),
    ("MAX_XYZ ` 999999`", 0),
    ("MAX_XYZ ` 1000000`", 9),
    ("MAX_XYZ ` 000001`", 0),
    ("MAX_XYZ ` 0000001`", 9),
    ("value 64 in column 0 under MAX_XYZ 64", 0),
    ("value 65 in column 0 under MAX_XYZ 64", 42),
    ("value -64 in column 1 under MAX_XYZ 64", 0),
    ("value -65 in column 1 under MAX_XYZ 64", 42),
    ("value 999999 in column 2 under MAX_XYZ 999999", 0),
    ("value 999999 in column 2 under MAX_XYZ 999998", 42),
    ("XYZ_FACTOR ` 999999999`", 0),
    ("XYZ_FACTOR ` 1234567890`", 9),
    ("XYZ_FACTOR ` .000000001`", 0),
    ("XYZ_FACTOR ` .0000000001`", 9),
    ("XYZ_FACTOR ` 000000000`", 10),
    ("XYZ_FACTOR ` 0000000000`", 9),
    ("XYZ row `1 999999 -999999 +999999`", 0),
    ("XYZ row `1 1000000 0 0`", 9),
    ("XYZ row `3 0 0 0`", 0),
    ("XYZ row `4 0 0 0`", 11),
    ("256 rows of coordinates, 0 decimals", 0),
    ("row `257 0 0 0` after 256 rows of coordinates", 11),
    ("row `256 0 0 0` after 256 rows of coordinates", 13),
    ("END line with 41 and 42", 41),
    ("END line with 42 and 15", 15),
    ("STEREOMOLECULE = `YES`", 0),
    ("STEREOMOLECULE = `YESS`", 9),
    ("STEREOMOLECULE = `YE`", 9),
    ("STEREOMOLECULE = `yes`", 9),
    ("STEREOMOLECULE behind `YES`", 0),
    ("STEREOMOLECULE=` YES\\nYES`", 9),
    ("STEREOMOLECULE=` YES\\n$$ YES`", 0),
    ("label `stereo-molecule` with `NO`", 9),
    ("label `STEREOMOLECULES` with `NO`", 0),
    ("label `STEREOMOLECUL` with `NO`", 0),
    ("label `XSTEREOMOLECULE` with `NO`", 0),
    ("label `3TEREOMOLECULE` with `NO`", 0),
    ("`##STEREOMOLECULE= YES\\n` before ATOMLIST", 6),
    ("256 atoms and the YES", 0),
    ("128 centres and the YES", 13),
    ("128 pairs and the YES", 13),
    ("129 centres and the YES", 14),
    ("32768 bytes with the YES", 0),
    ("32769 bytes with the YES", 2),
    ("END line with YES beside both, 42, 15, a value", 9),
];

/// The refusal numbers by the cases' names.
fn numbers() -> BTreeMap<String, u64> {
    limit_blocks().into_iter().map(|(name, block)| (name, check(&block) >> 32)).collect()
}

#[test]
fn every_name_stands_once_and_every_refusal_occurs() {
    let cases = limit_blocks();
    let names: BTreeSet<&String> = cases.iter().map(|(name, _)| name).collect();
    assert_eq!(names.len(), cases.len());
    assert!(cases.len() >= 400, "only {} cases", cases.len());
    let seen: BTreeSet<u64> = numbers().into_values().collect();
    let all: BTreeSet<u64> = [0, 41, 42].into_iter().chain(2..=17).collect();
    assert_eq!(seen, all);
}

#[test]
fn each_limit_passes_and_one_more_is_refused() {
    let numbers = numbers();
    for (name, number) in EXPECTED {
        assert_eq!(numbers.get(name), Some(&number), "{name}");
    }
}

/// Named tables, each with its refusal number and how many fragments its form has.
const TABLES: [(&str, u32, usize); 15] = [
    ("256 atoms alone", 0, 256),
    ("256 atoms in a chain", 0, 1),
    ("256 atoms in a chain with the first at its end", 0, 1),
    ("256 atoms in a chain from both ends", 0, 1),
    ("256 atoms at the last", 0, 1),
    ("256 atoms in pairs within pairs", 0, 128),
    ("256 atoms in pairs joined one by one", 0, 1),
    ("256 atoms in pairs far apart", 0, 128),
    ("256 atoms taking turns with 512 bonds", 0, 2),
    ("256 atoms taking turns with 511 bonds and one between", 0, 1),
    ("256 atoms taking turns with 511 bonds and `A` between", 0, 2),
    ("256 atoms in a chain of kind 4", 0, 1),
    ("256 atoms in a chain of kind 5", 0, 256),
    ("two helium atoms, a form of 32768 bytes in 32768", 0, 2),
    ("256 atoms alone, a form of 32768 bytes in 32768", 0, 256),
];

#[test]
fn the_named_tables_have_the_fragments_that_they_are_called_by() {
    let mut answers: BTreeMap<String, (u32, usize)> = BTreeMap::new();
    let cases = fragment_limits();
    let count = cases.len();
    for (name, case) in cases {
        let mut buffer = vec![0; case.room];
        let written = write(&case.table, &case.texts, &mut buffer);
        let stars = buffer[..written.count].iter().filter(|&&byte| byte == b'*').count();
        answers.insert(name, (written.number, stars + 1));
    }
    assert_eq!(answers.len(), count, "a name stands twice");
    for (name, number, fragments) in TABLES {
        assert_eq!(answers.get(name), Some(&(number, fragments)), "{name}");
    }
    for (name, (number, _)) in answers {
        let expected = match name.rsplit_once("of ").map(|(_, lengths)| lengths) {
            Some("32767 bytes in 32766" | "32768 bytes in 32767") => 22,
            Some("32769 bytes in 32768" | "32769 bytes in 32769") => 23,
            _ => 0,
        };
        assert_eq!(number, expected, "{name}");
    }
}
