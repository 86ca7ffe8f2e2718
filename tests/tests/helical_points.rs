//! Request L4, the points 4.1 to 4.7 that its words leave open, with our decision on each. The other
//! answer stands in the comments.

mod given;

use galebonnet_tests::generate::{self, Random};
use galebonnet_tests::independent::write;
use given::*;

const YES: &str = "##STEREOMOLECULE= YES\n";
const EMPTY: &str = "##STEREOMOLECULE=\n";
const CENTRES: &str = "##STEREOCENTER=\n1 P\n";

/// 4.1 `YES` exactly: upper case, one field.
#[test]
fn point_1_yes_exactly() {
    assert_eq!(table(&records(YES))[13], 1);
    // the other answers: 0@0, since labels are raised to upper case; since blanks do not count; since
    // only the first field does; or 0@0 with number 13 left 0, since NO is a value too
    for value in ["yes", "Yes", "YES.", "YES YES", "Y E S", "YES NO", "NO", "0", "TRUE", "'YES'", "YES,"] {
        let line = format!("##STEREOMOLECULE= {value}");
        let block = records(&format!("{line}\n"));
        assert_eq!(answer(&block), at_line(9, &block, &line));
    }
}

/// 4.2 "The next row" is the next line that is not blank once its comment is cut; a second one is 9 on
/// its own line.
#[test]
fn point_2_the_next_row() {
    let block = records("##STEREOMOLECULE= $$ x\n\n \t\r\n$$ YES\nYES\n");
    // the other answer: 9, since the next line is blank
    assert_eq!(table(&block)[13], 1);
    let block = records("##STEREOMOLECULE=\nYES \n$$ x\nYES\n");
    // the other answers: 0@0, the same again is dropped; or 9 at the first one
    assert_eq!(answer(&block), at_line(9, &block, "YES"));
    let block = records("##STEREOMOLECULE=\n##DATE=\nYES\n");
    // the other answer: 0@0, since the row comes next; it belongs to DATE
    assert_eq!(answer(&block), at_line(9, &block, "##END="));
    // what would be a second row stands in another record
    assert_eq!(table(&records(&format!("{YES}##DATE=\nYES\n")))[13], 1);
}

/// 4.3 No value is 9 on the END line, not on the label line: it ties with END's own value and loses to 8.
#[test]
fn point_3_no_value() {
    let block = records(EMPTY);
    // the other answer: 9 at the label line, as for an empty MOLFORM or MAX_XYZ
    assert_eq!(answer(&block), at_line(9, &block, "##END="));
    let text = String::from_utf8(block).expect("ASCII");
    let both = text.replace("##END=", "##END= x").into_bytes();
    assert_eq!(answer(&both), at_line(9, &both, "##END= x"));
    let missing = text.replace("##OWNER=\n", "").into_bytes();
    // the other answer: 9, since the record stands there and the other does not
    assert_eq!(answer(&missing), at_line(8, &missing, "##END="));
    let open = text.replace("##END=\n", "").into_bytes();
    // the other answer: 9 at the label line, since nothing more can come
    assert_eq!(answer(&open), format!("16@{}", open.len()));
}

/// 4.4 Rows count, not labels, and 13 stands at END whichever came first; 8 and 9 come before it there,
/// 15, 41 and 42 behind it.
#[test]
fn point_4_beside_rows() {
    for records_of in ["##STEREOCENTER=\n##STEREOPAIR=\n$$ 1 2 P\n", "##STEREOCENTER=\n\n"] {
        // the other answer: 13, since the labels stand beside the YES
        assert_eq!(table(&records(&format!("{YES}{records_of}")))[13], 1);
    }
    for records_of in [format!("{YES}{CENTRES}"), format!("{CENTRES}{YES}")] {
        let block = records(&records_of);
        // the other answers: 13 at `1 P`, or at the YES
        assert_eq!(answer(&block), at_line(13, &block, "##END="));
    }
    let clash = [YES, CENTRES].concat();
    let above = "##MAX_XYZ= 0\n##XYZ_FACTOR= 1\n##XYZ=\n1 1 0 0\n";
    for coordinates in ["", "##XYZ=\n", above] {
        let text = String::from_utf8(records(&format!("{clash}{coordinates}"))).expect("ASCII");
        let formula = text.replace("= H3", "= H4");
        // the other answers: 15, 41 or 42, since those were tested there before
        for block in [&text, &formula] {
            assert_eq!(answer(block.as_bytes()), at_line(13, block.as_bytes(), "##END="));
        }
        let value = formula.replace("##END=", "##END= x");
        assert_eq!(answer(value.as_bytes()), at_line(9, value.as_bytes(), "##END= x"));
        let missing = value.replace("##ORIGIN=\n", "");
        assert_eq!(answer(missing.as_bytes()), at_line(8, missing.as_bytes(), "##END= x"));
    }
}

/// 4.5 Its rank is RADICAL's: the later label of the core is the one that is refused.
#[test]
fn point_5_rank() {
    for label in ["JCAMP-CS", "ORIGIN", "OWNER", "MOLFORM", "ATOMLIST"] {
        for record in [YES, EMPTY] {
            let text = String::from_utf8(records("")).expect("ASCII");
            let block = text.replacen(&format!("##{label}="), &format!("{record}##{label}="), 1);
            let place = block.find(&format!("##{label}=")).expect("the label line");
            // the other answers: 6 at STEREOMOLECULE; or accepted as before, when it was skipped
            assert_eq!(answer(block.as_bytes()), format!("6@{place}"), "{label}");
        }
    }
    let block = records(&format!("{YES}##CHARGE=\n+1 1\n"));
    // the other answer: 0@0, the request names RADICAL alone
    assert_eq!(answer(&block), at_line(6, &block, "##CHARGE="));
    for free in
        ["##BLOCK_ID= 7\n", "##RADICAL=\n1 1\n", "##STEREOPAIR=\n", "##MAX_XYZ= 9\n##XYZ_FACTOR= 1\n##XYZ=\n"]
    {
        assert_eq!(answer(&records(&format!("{YES}{free}"))), "0@0");
        assert_eq!(answer(&records(&format!("{free}{YES}"))), "0@0");
    }
    let block = records(&format!("{YES}##END=\n{EMPTY}"));
    assert_eq!(answer(&block), at_line(6, &block, "##STEREOMOLECULE="));
}

/// 4.6 Number 13 is 0 or 1; with 1 there are no centres and no pairs; the record stands before END.
#[test]
fn point_6_table_and_form() {
    let block = records("##STEREOPAIR=\n##STEREOCENTER=\n##STEREOMOLECULE=\nYES\n##RADICAL=\n1\n");
    let mut read = table(&block);
    let form = written(&read, &block).expect("a form");
    // the other answers: the empty labels are kept, or the YES stands below its label
    assert!(form.ends_with("##RADICAL=\n1\n##STEREOMOLECULE= YES\n##END=\n"), "{form}");
    read[13] = 0;
    let without = written(&read, &block).expect("a form");
    assert_eq!(without, form.replace(YES, ""));
    // the record's 22 bytes count in the form's length
    assert_eq!(form.len(), without.len() + 22);
    read[13] = 1;
    assert_eq!(write(&read, &block, &mut vec![0; form.len() - 1]).number, 22);
    for number in [-1, 2, i32::MIN, i32::MAX] {
        read[13] = number;
        // the other answer: written, since it is not 0
        assert_eq!(written(&read, &block), Err(21), "{number}");
    }
}

/// The form of a table with the YES and a title as long as its block allows.
#[test]
fn point_6_the_longest_form() {
    let block = records(YES);
    let mut read = table(&block);
    let form = written(&read, &block).expect("a form");
    let texts = vec![b'a'; 40_000];
    let longest = 32_768 - form.len() + 1;
    for (length, number) in [(longest, 0), (longest + 1, 23)] {
        read[7..9].copy_from_slice(&[0, length as i32]);
        assert_eq!(write(&read, &texts, &mut vec![0; 40_000]).number, number, "a title of {length} bytes");
    }
}

/// 4.7 Tables with 13 = 0 stay sound and their forms stay: a block without the label gives the table that
/// it gave, and what is written has no such record.
#[test]
fn point_7_old_tables_and_forms_stay() {
    let mut random = Random::new(73);
    let mut old = 0;
    for _ in 0..3_000 {
        let (read, texts) = generate::tables::sound_table(&mut random);
        if read[13] == 0 {
            old += 1;
            let form = written(&read, &texts).expect("a form");
            assert!(!form.contains("##STEREOMOLECULE="), "{form}");
        }
    }
    assert!(old > 2_000, "only {old} tables with 13 = 0");
    let full = "##STEREOCENTER=\n1 P\n3 M a\n##STEREOPAIR=\n1 2 0\n";
    let block = records(full);
    // the other answer: a record `NO` for what is not helical
    assert!(written(&table(&block), &block).expect("a form").ends_with(&format!("{full}##END=\n")));
}
