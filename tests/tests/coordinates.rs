//! Request L2, sentence by sentence. Each test has the sentence's words, the right answer, and in its
//! comments the wrong one that a reader might give.

mod given;

use galebonnet_tests::generate::{self, Random};
use galebonnet_tests::independent::{read, write, Position};
use given::*;

const MOST: &str = "##MAX_XYZ= 9\n";
const FACTOR: &str = "##XYZ_FACTOR= 0.5\n";
const ROWS: &str = "##XYZ=\n1 1 2 3\n";

/// "Read MAX_XYZ, XYZ_FACTOR and XYZ after the core, in any order with the other shell labels, each
/// at most once." Wrong: skipped as before, so that nothing is given; or XYZ only after the others.
#[test]
fn the_three_are_read_after_the_core_in_any_order_each_once() {
    let radical = "##RADICAL=\n1 1\n";
    for order in [[MOST, FACTOR, radical, ROWS], [ROWS, radical, MOST, FACTOR], [radical, FACTOR, ROWS, MOST]]
    {
        let block = records(&order.concat());
        assert_eq!(position(&block, 1), Position::At(0.5, 1.0, 1.5));
    }
    for record in [MOST, FACTOR, ROWS] {
        // wrong: 0@0, the core is free to follow
        for core in ["##CHARGE=\n+1 1\n", "##BONDLIST=\n1 2 S\n"] {
            let block = records(&format!("{record}{core}"));
            assert_eq!(answer(&block), at_line(6, &block, core.lines().next().expect("a label line")));
        }
        // wrong: the second one wins
        let whole = records(&[MOST, FACTOR, ROWS, record].concat());
        let again = String::from_utf8_lossy(&whole).rfind(record).expect("the record");
        assert_eq!(answer(&whole), format!("6@{again}"));
    }
}

/// "Rows are an atom and three signed numbers of 1 to 6 digits, atoms ascending, not all needed."
#[test]
fn rows_are_an_atom_and_three_signed_numbers() {
    let block = rows("1", "1 999999 -999999 +000001\n3 0 -0 +0");
    assert_eq!(position(&block, 1), Position::At(999_999.0, -999_999.0, 1.0));
    // wrong: refused since atom 2 is missing, or atom 2 gets the second row
    assert_eq!(position(&block, 2), Position::NotGiven);
    assert_eq!(position(&block, 3), Position::At(0.0, 0.0, 0.0));
    // wrong: accepted by a number parser
    for row in [
        "1 1000000 0 0",
        "1 0 0000001 0",
        "1 0 0",
        "1 0 0 0 0",
        "1 0 0 1.5",
        "1 0 0 +",
        "+1 0 0 0",
        "1 0 0 1E2",
    ] {
        let block = rows("1", row);
        assert_eq!(answer(&block), at_line(9, &block, row));
    }
}

/// "MAX_XYZ is unsigned, 1 to 6 digits, and bounds each absolute value."
#[test]
fn max_xyz_bounds_each_absolute_value() {
    for (most, number) in [("999999", 0), ("000999", 0), ("999", 0), ("998", 42), ("0", 42)] {
        for row in ["1 999 0 0", "1 0 -999 0", "1 0 0 +999"] {
            let block = records(&format!("##MAX_XYZ= {most}\n{FACTOR}##XYZ=\n{row}\n"));
            let wanted = if number == 0 { "0@0".to_string() } else { at_line(number, &block, "##END=") };
            // wrong: a negative value is never above
            assert_eq!(answer(&block), wanted, "{row} under {most}");
        }
    }
    for most in ["+9", "-9", "0000009", "1000000", "9.", "9 9", "x"] {
        let block = records(&format!("##MAX_XYZ= {most}\n{FACTOR}{ROWS}"));
        assert_eq!(answer(&block), at_line(9, &block, &format!("##MAX_XYZ= {most}")));
    }
}

/// "The factor is 1 to 9 digits with at most one point, anywhere, no sign or exponent."
#[test]
fn the_factor_is_digits_and_at_most_one_point() {
    for (factor, x) in [
        ("5", 15.0),
        ("5.", 15.0),
        (".5", 1.5),
        ("0.5", 1.5),
        ("000000005", 15.0),
        ("1.25", 3.75),
        (".000000001", 3e-9),
    ] {
        assert_eq!(first_coordinate(factor, "3"), x, "{factor}");
    }
    // wrong: accepted by a float parser
    for factor in [".", "1.2.3", "..5", "+5", "-5", "5E0", "5e-1", "1234567890", "0.123456789", "1,5", "inf"]
    {
        let block = rows(factor, "1 0 0 0");
        assert_eq!(answer(&block), at_line(9, &block, &format!("##XYZ_FACTOR= {factor}")));
    }
}

/// "Both stand on their label line; an empty one or a further row is 9."
#[test]
fn both_stand_on_their_label_line() {
    for (label, value) in [("MAX_XYZ", "9"), ("XYZ_FACTOR", "0.5")] {
        let with = |record: &str| {
            let whole = [MOST, FACTOR, ROWS].concat();
            records(&whole.replace(&format!("##{label}= {value}\n"), record))
        };
        for empty in
            [format!("##{label}=\n"), format!("##{label}=\n{value}\n"), format!("##{label}= $$ {value}\n")]
        {
            // wrong: the value on the next line is taken, or 9 at that line
            let block = with(&empty);
            assert_eq!(answer(&block), at_line(9, &block, empty.lines().next().expect("a label line")));
        }
        // wrong: the further row is skipped
        let block = with(&format!("##{label}= {value}\n$$ x\n\n {value}\n"));
        assert_eq!(answer(&block), at_line(9, &block, &format!(" {value}")));
        assert_eq!(answer(&with(&format!("##{label}= {value} $$ x\n$$ x\n \t\r\n"))), "0@0");
    }
}

/// "The factor is kept with its value as a float beside its digits." Its digits decide: wrong is the
/// row's value times the float, which rounds twice and gives 0.30000000000000004.
#[test]
fn the_digits_decide_not_the_float_beside_them() {
    assert_eq!(first_coordinate("0.1", "3").to_bits(), 0.3f64.to_bits());
    assert_ne!((3.0 * 0.1f64).to_bits(), 0.3f64.to_bits());
}

/// "An atom's position is either three coordinates in Angstrom or not given."
#[test]
fn a_position_is_three_coordinates_or_not_given() {
    let block = rows("0.01", "2 0 0 0");
    // wrong: an atom at the origin is not given
    assert_eq!(position(&block, 2), Position::At(0.0, 0.0, 0.0));
    assert_eq!([1, 3, 4, 256].map(|atom| position(&block, atom)), [Position::NotGiven; 4]);
}

/// "Each coordinate is the whole product of row value and factor digits, divided once by its power of
/// ten." Wrong: the value divided by the power and then multiplied, or multiplied by a rounded factor.
#[test]
fn a_coordinate_is_one_division_of_the_whole_product() {
    for (factor, value, product, power) in [
        ("1.23456789", "999999", 123_456_665_543_211i64, 100_000_000i64),
        (".999999999", "-999999", -999_998_999_000_001, 1_000_000_000),
        ("0.001", "1457", 1457, 1000),
        ("123456789", "999999", 123_456_665_543_211, 1),
    ] {
        let wanted = product as f64 / power as f64;
        assert_eq!(first_coordinate(factor, value).to_bits(), wanted.to_bits(), "{value} * {factor}");
    }
}

/// "Positions stand in a lent table of their own, 1,024 64-bit floats (per atom 1 if given, X, Y, Z;
/// else four 0)." Wrong: what stood there before stays where no atom is given.
#[test]
fn positions_stand_in_a_table_of_their_own() {
    let reading = lent(&rows("0.5", "1 1 2 -3\n3 4 5 6"), NUMBERS, FLOATS + 3);
    let mut wanted = vec![0f64; FLOATS];
    wanted[..4].copy_from_slice(&[1.0, 0.5, 1.0, -1.5]);
    wanted[8..12].copy_from_slice(&[1.0, 2.0, 2.5, 3.0]);
    assert_eq!(bits(&reading.positions[..FLOATS]), bits(&wanted));
    assert_eq!(reading.positions[FLOATS..], [FLOAT; 3]);
    // the structure table knows nothing of them
    assert_eq!(reading.table[..7], [3, 0, 0, 0, 0, 0, 0]);
    assert_eq!(reading.table[13..16], [0, 0, 0]);
}

/// "Cleared on refusals other than 1": both tables, whatever the refusal. Wrong: the floats of the rows
/// before the fault stay.
#[test]
fn refusals_other_than_1_clear_both_tables() {
    let mut random = Random::new(61);
    let mut numbers = std::collections::BTreeSet::new();
    for _ in 0..3_000 {
        let mut block = generate::coordinate_block(&mut random);
        if random.chance(1) {
            block.resize(32_769, b' ');
        }
        let reading = lent(&block, NUMBERS + 1, FLOATS + 1);
        assert_eq!((reading.table[NUMBERS], reading.positions[FLOATS]), (NUMBER, FLOAT));
        let number: u32 =
            reading.answer.split('@').next().and_then(|number| number.parse().ok()).expect("a number");
        if number != 0 {
            numbers.insert(number);
            assert!(reading.table[..NUMBERS].iter().all(|&number| number == 0), "{}", reading.answer);
            assert!(
                reading.positions[..FLOATS].iter().all(|float| float.to_bits() == 0),
                "{}",
                reading.answer
            );
        }
    }
    assert!(
        [2, 3, 6, 9, 10, 11, 13, 15, 16, 41, 42].iter().all(|number| numbers.contains(number)),
        "{numbers:?}"
    );
}

/// "XYZ isn't written yet, so demand 2's way back covers the structure table only."
#[test]
fn the_way_back_covers_the_structure_table_only() {
    let mut random = Random::new(62);
    for _ in 0..2_000 {
        let block = generate::coordinates::sound_coordinate_block(&mut random);
        let Reading { table, .. } = lent(&block, NUMBERS, FLOATS);
        let mut form = vec![0; 32_768];
        let written = write(&table, &block, &mut form);
        assert_eq!(written.number, 0);
        form.truncate(written.count);
        // wrong: the records are written after all
        assert!(!form.windows(3).any(|three| three == b"XYZ"), "{}", form.escape_ascii());
        let (mut back, mut positions) = (vec![NUMBER; NUMBERS], vec![FLOAT; FLOATS]);
        assert_eq!(read(&form, &mut back, &mut positions).number, 0);
        assert_eq!((&back[..7], &back[13..]), (&table[..7], &table[13..]));
        assert!(positions.iter().all(|float| float.to_bits() == 0));
    }
}

/// "A short position table is 1, nothing touched." Wrong: the structure table is filled or zeroed
/// first; or the block's own refusal is answered.
#[test]
fn a_short_position_table_is_1_and_nothing_is_touched() {
    let sound = rows("1", "1 1 1 1");
    for block in [&sound[..], b"", b"\0", &[b' '; 32_769]] {
        for (numbers, floats) in [
            (NUMBERS, FLOATS - 1),
            (NUMBERS, 0),
            (NUMBERS + 9, 4),
            (NUMBERS - 1, FLOATS),
            (0, FLOATS + 9),
            (NUMBERS - 1, FLOATS - 1),
            (0, 0),
        ] {
            let reading = lent(block, numbers, floats);
            assert_eq!(reading.answer, "1@0", "{numbers} numbers, {floats} floats");
            assert!(reading.table.iter().all(|&number| number == NUMBER));
            assert!(reading.positions.iter().all(|&float| float == FLOAT));
        }
    }
}

/// "41 one or two of the three labels present without the rest, tested on the END line after 15."
#[test]
fn one_or_two_of_the_three_labels_are_41() {
    for part in [
        [MOST, "", ""],
        ["", FACTOR, ""],
        ["", "", ROWS],
        [MOST, FACTOR, ""],
        [MOST, "", ROWS],
        ["", FACTOR, ROWS],
    ] {
        let block = records(&part.concat());
        // wrong: 8 for a record that is missing, or the place of the label
        assert_eq!(answer(&block), at_line(41, &block, "##END="));
        let other = String::from_utf8_lossy(&block).replace("= H3", "= H4").into_bytes();
        // wrong: 41 before 15
        assert_eq!(answer(&other), at_line(15, &other, "##END="));
    }
    assert_eq!(answer(&records("")), "0@0");
    assert_eq!(answer(&records(&[MOST, FACTOR, ROWS].concat())), "0@0");
}

/// "42 a value above MAX_XYZ, also tested there, after 41."
#[test]
fn a_value_above_max_xyz_is_42_at_end() {
    let above = ["##XYZ=\n1 1 2 10\n", FACTOR, MOST].concat();
    let block = records(&above);
    // wrong: at the row, or at MAX_XYZ
    assert_eq!(answer(&block), at_line(42, &block, "##END="));
    let without = records(&above.replace(FACTOR, ""));
    // wrong: 42 before 41
    assert_eq!(answer(&without), at_line(41, &without, "##END="));
    let other = String::from_utf8_lossy(&block).replace("= H3", "= H4").into_bytes();
    // wrong: 42 before 15
    assert_eq!(answer(&other), at_line(15, &other, "##END="));
}

/// "Shape, range, atom and order faults as 9, 10, 11 and 13, with a zero factor as 10."
#[test]
fn shape_range_atom_and_order_faults() {
    for (row, number) in [("1 0 0", 9), ("4 0 0 0", 11), ("0 0 0 0", 11), ("4 0 0", 9)] {
        let block = rows("1", row);
        assert_eq!(answer(&block), at_line(number, &block, row));
    }
    for (row, number) in [("1 0 0 1", 13), ("2 0 0 1", 13), ("4 0 0 1", 11), ("0 0 0 1", 11), ("1 0 1", 9)] {
        let block = rows("1", &format!("2 0 0 0\n{row}"));
        assert_eq!(answer(&block), at_line(number, &block, row));
    }
    for factor in ["0", "0.0", ".0", "0.", "000000000"] {
        let block = rows(factor, "1 0 0 0");
        // wrong: 9, or accepted with every atom at the origin
        assert_eq!(answer(&block), at_line(10, &block, &format!("##XYZ_FACTOR= {factor}")));
    }
}
