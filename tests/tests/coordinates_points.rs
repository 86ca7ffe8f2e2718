//! Request L2, the points 2.1 to 2.13 that its words leave open, with our decision on each. The other
//! answer stands in the comments.

mod given;

use galebonnet_tests::generate::{self, Random};
use galebonnet_tests::independent::{self, walk_lines, Position};
use given::*;

const WHOLE: &str = "##MAX_XYZ= 9\n##XYZ_FACTOR= 0.5\n##XYZ=\n1 1 2 3\n";

/// 2.1 Labels are compared as the others are; labels that look like them stay unknown.
#[test]
fn point_1_labels() {
    for (from, to) in [
        ("MAX_XYZ", "max-xyz"),
        ("MAX_XYZ", "MaxXyz"),
        ("XYZ_FACTOR", "XYZ FACTOR"),
        ("XYZ_FACTOR", "xyz/factor"),
        ("##XYZ=", "## X_Y-Z ="),
    ] {
        // the other answer: only the paper's spelling is known, 41 or skipped
        assert_eq!(position(&records(&WHOLE.replace(from, to)), 1), Position::At(0.5, 1.0, 1.5), "{to}");
    }
    // the other answer: 41, XYZ_SOURCE counts as one of them
    assert_eq!(
        answer(&records("##XYZ_SOURCE= x\n1 2\n##XY_RASTER=\n##MAX_RASTER= 5\n##XYZ_SOURCE=\n")),
        "0@0"
    );
    // the other answer: 0@0, "after the core" is the caller's business
    let block = records("##XYZ=\n##CHARGE=\n+1 1\n");
    assert_eq!(answer(&block), at_line(6, &block, "##CHARGE="));
    assert_eq!(answer(&records(&format!("{WHOLE}##BLOCK_ID= 7\n"))), "0@0");
}

/// 2.2 MAX_XYZ has no range but its digits, and 0 is one of them; a row's value has none either.
#[test]
fn point_2_no_range() {
    let block = records("##MAX_XYZ= 0\n##XYZ_FACTOR= 1\n##XYZ=\n2 0 -0 +000\n");
    // the other answer: 10 at MAX_XYZ
    assert_eq!(position(&block, 2), Position::At(0.0, 0.0, 0.0));
    let block = records("##MAX_XYZ= 5\n##XYZ_FACTOR= 1\n##XYZ=\n2 0 999999 0\n");
    // the other answer: 10 at the row
    assert_eq!(answer(&block), at_line(42, &block, "##END="));
}

/// 2.3 42 compares the row's whole number, unscaled.
#[test]
fn point_3_unscaled() {
    let with = |value: &str| records(&format!("##MAX_XYZ= 64\n##XYZ_FACTOR= 0.01\n##XYZ=\n1 {value} 0 0\n"));
    // the other answer: 0@0, since 0.65 Angstrom are below 64
    assert_eq!(answer(&with("-65")), at_line(42, &with("-65"), "##END="));
    assert_eq!(answer(&with("-64")), "0@0");
}

/// 2.4 Atoms ascend strictly; 11 comes before 13; no 14 arises.
#[test]
fn point_4_strictly_ascending() {
    let block = rows("1", "2 0 0 0\n1 0 0 0");
    // the other answers: 0@0 in any order, or 13 at END
    assert_eq!(answer(&block), at_line(13, &block, "1 0 0 0"));
    let block = rows("1", "2 0 0 0\n2 0 0 1");
    // the other answer: 0@0, the same atom again replaces the first row
    assert_eq!(answer(&block), at_line(13, &block, "2 0 0 1"));
    let block = rows("1", "3 0 0 0\n0 0 0 1");
    // the other answer: 13, since 0 is below 3
    assert_eq!(answer(&block), at_line(11, &block, "0 0 0 1"));
    let named = generate::limit_blocks();
    let (_, block) =
        named.iter().find(|(name, _)| name == "row `257 0 0 0` after 256 rows of coordinates").expect("it");
    // the other answer: 14
    assert_eq!(answer(block), at_line(11, block, "257 0 0 0"));
}

/// 2.5 The factor's digits and point.
#[test]
fn point_5_factors() {
    for factor in [".5", "5.", "0.001", ".000000001", "000000001", "123456789", "1.23456789"] {
        assert_eq!(answer(&rows(factor, "1 1 1 1")), "0@0", "{factor}");
    }
    let refused = |factor: &str, number: u32| {
        let block = rows(factor, "1 1 1 1");
        assert_eq!(answer(&block), at_line(number, &block, &format!("##XYZ_FACTOR= {factor}")));
    };
    // the other answers: `.` is 0 and so 10; leading zeros do not count as digits; a sign is a float's
    for factor in [".", "1.2.3", "1234567890", "0000000001", "+1", "1E-3", "1,5", "1 2"] {
        refused(factor, 9);
    }
    // the other answer: 9, a factor starts with another digit
    for factor in ["0", "0.0", ".0"] {
        refused(factor, 10);
    }
}

/// 2.6 Decimals are the digits behind the point; the whole product is divided, not the float multiplied.
#[test]
fn point_6_decimals() {
    assert_eq!(first_coordinate("5.", "7"), 35.0);
    assert_eq!(first_coordinate("5.0", "7"), 35.0);
    assert_eq!(first_coordinate(".05", "7"), 0.35);
    // the other answer: 0.30000000000000004
    assert_eq!(first_coordinate("0.1", "3").to_bits(), 0.3f64.to_bits());
    // the other answer: 0.6000000000000001
    assert_eq!(first_coordinate("0.2", "3").to_bits(), 0.6f64.to_bits());
    assert_eq!(first_coordinate(".000000001", "1"), 1e-9);
    assert_eq!(first_coordinate("999999999", "-999999"), -999_998_999_000_001.0);
}

/// 2.7 `-0` is the whole number 0, so +0.0 stands in the table. The other answer: the bits of -0.0.
#[test]
fn point_7_minus_zero() {
    for factor in ["1", "0.5", "999999999", ".000000001"] {
        assert_eq!(first_coordinate(factor, "-0").to_bits(), 0, "{factor}");
        assert_eq!(first_coordinate(factor, "-000000").to_bits(), 0, "{factor}");
    }
}

/// 2.8 An empty one is refused at its label line, even if the value follows below; XYZ's own rows may
/// start on the label line.
#[test]
fn point_8_label_lines() {
    let block = records("##MAX_XYZ=\n9\n");
    // the other answer: 9 at the row below
    assert_eq!(answer(&block), at_line(9, &block, "##MAX_XYZ="));
    let block = records("##XYZ_FACTOR=\n0.5\n");
    assert_eq!(answer(&block), at_line(9, &block, "##XYZ_FACTOR="));
    let block = records("##MAX_XYZ= 9\n##XYZ_FACTOR= 0.5\n##XYZ= 1 1 2 3\n2 4 4 4\n");
    // the other answer: 9 at the label line
    assert_eq!(position(&block, 1), Position::At(0.5, 1.0, 1.5));
    assert_eq!(position(&block, 2), Position::At(2.0, 2.0, 2.0));
}

/// 2.9 Presence is the label's, not the rows'.
#[test]
fn point_9_presence() {
    let block = records("##MAX_XYZ= 9\n##XYZ_FACTOR= 0.5\n##XYZ=\n$$ none\n");
    // the other answer: 41, or 8 as for an ATOMLIST without rows
    assert_eq!([1, 2, 3].map(|atom| position(&block, atom)), [Position::NotGiven; 3]);
    let block = records("##XYZ=\n");
    // the other answer: 0@0, nothing needs the others
    assert_eq!(answer(&block), at_line(41, &block, "##END="));
    let block = records("##MAX_XYZ= 9\n##XYZ_FACTORS= 0.5\n##XYZ=\n");
    assert_eq!(answer(&block), at_line(41, &block, "##END="));
}

/// 2.10 On the END line the lowest number wins: 8, 9, 15, 41, 42.
#[test]
fn point_10_the_end_line() {
    let above = WHOLE.replace("= 9", "= 2");
    let both = above.replace("##XYZ_FACTOR= 0.5\n", "");
    let block = |records_of: &str, changes: &[(&str, &str)]| {
        let text = String::from_utf8(records(records_of)).expect("ASCII");
        changes.iter().fold(text, |text, (from, to)| text.replace(from, to)).into_bytes()
    };
    let (owner, value, formula) = (("##OWNER=\n", ""), ("##END=\n", "##END= x\n"), ("= H3", "= H4"));
    for faulty in [&above, &both] {
        // the other answers: 41 and 42 come first, since the records are read first
        let all = block(faulty, &[owner, value, formula]);
        assert_eq!(answer(&all), at_line(8, &all, "##END= x"));
        let two = block(faulty, &[value, formula]);
        assert_eq!(answer(&two), at_line(9, &two, "##END= x"));
        let one = block(faulty, &[formula]);
        assert_eq!(answer(&one), at_line(15, &one, "##END="));
    }
    assert_eq!(answer(&records(&both)), at_line(41, &records(&both), "##END="));
    assert_eq!(answer(&records(&above)), at_line(42, &records(&above), "##END="));
}

/// 2.11 The position table: floats beyond 1,024 stay; atoms above the count have four 0.
#[test]
fn point_11_the_position_table() {
    let reading = lent(&records(WHOLE), NUMBERS + 2, FLOATS + 2);
    assert_eq!(reading.positions[..4], [1.0, 0.5, 1.0, 1.5]);
    // the other answer: only the atoms listed are written to
    assert!(reading.positions[4..FLOATS].iter().all(|float| float.to_bits() == 0));
    assert_eq!(
        (&reading.positions[FLOATS..], &reading.table[NUMBERS..]),
        (&[FLOAT; 2][..], &[NUMBER; 2][..])
    );
    let refused = lent(&records("##XYZ=\n"), NUMBERS + 2, FLOATS + 2);
    assert!(refused.positions[..FLOATS].iter().all(|float| float.to_bits() == 0));
    assert_eq!(refused.positions[FLOATS..], [FLOAT; 2]);
}

/// 2.12 Check and walk judge as with long enough tables, so they answer 41 and 42. The other answer: the
/// coordinates are judged only where a position table is lent.
#[test]
fn point_12_check_and_walk() {
    let block = records("##XYZ=\n");
    let end = place(&block, "##END=");
    assert_eq!(independent::check(&block), (41 << 32) + end as u64);
    assert_eq!(walk_lines(&block), format!("B 0 {} 41 {end} 0 0\n", block.len()));
    assert_eq!(independent::name(&block, b"?"), b"t");
    let mut random = Random::new(63);
    for _ in 0..1_000 {
        answer(&generate::coordinate_block(&mut random));
    }
}

/// 2.13 A position out of a lent table is total: given where the first float is 1, and else not.
#[test]
fn point_13_positions_are_total() {
    let reading = lent(&records(WHOLE), NUMBERS, FLOATS);
    let at = |positions: &[f64], atom: usize| independent::position(positions, atom);
    assert_eq!(at(&reading.positions, 1), Position::At(0.5, 1.0, 1.5));
    // the other answer: out of bounds, a panic
    for atom in [0, 4, 256, 257, usize::MAX] {
        assert_eq!(at(&reading.positions, atom), Position::NotGiven, "{atom}");
    }
    assert_eq!(at(&reading.positions[..3], 1), Position::NotGiven);
    assert_eq!(at(&[], 1), Position::NotGiven);
    // the other answer: any float but 0 counts as given
    for flag in [0.0, -1.0, 2.0, f64::NAN, f64::MIN_POSITIVE] {
        assert_eq!(at(&[flag, 1.0, 1.0, 1.0], 1), Position::NotGiven, "{flag}");
    }
    // atom 257 has no place, however long the table is
    assert_eq!(at(&[1.0; 4 * 300], 257), Position::NotGiven);
    assert_eq!(at(&[1.0; 4 * 300], 256), Position::At(1.0, 1.0, 1.0));
}
