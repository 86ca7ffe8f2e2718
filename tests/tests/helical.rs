//! Request L4, sentence by sentence. Each test has the sentence's words, the right answer, and in its
//! comments the wrong one that a reader might give.

mod given;

use galebonnet_tests::generate::helical::sound_helical_block;
use galebonnet_tests::generate::{self, Random};
use galebonnet_tests::independent::walk_lines;
use given::*;

const YES: &str = "##STEREOMOLECULE= YES\n";
const CENTRES: &str = "##STEREOCENTER=\n1 P\n";
const PAIRS: &str = "##STEREOPAIR=\n1 2 M\n";

/// The block with some text replaced.
fn changed(block: &[u8], from: &str, to: &str) -> Vec<u8> {
    let text = String::from_utf8_lossy(block);
    assert!(text.contains(from), "no {from} in {text}");
    text.replace(from, to).into_bytes()
}

/// "A helicene loses its handedness, since document 01 skips STEREOMOLECULE." Wrong: skipped as before,
/// so that number 13 stays 0 and any value passes.
#[test]
fn stereomolecule_is_no_longer_skipped() {
    assert_eq!(table(&records(YES))[13], 1);
    assert_eq!(table(&records(""))[13], 0);
    for skipped in ["##STEREOMOLECULES= NO\n1 2\n", "##STEREOMOLECUL=\n", "##TEREOMOLECULE= x\n"] {
        // wrong: what looks like the label is read too
        assert_eq!(table(&records(&skipped.repeat(2)))[13], 0, "{skipped}");
    }
    // wrong: 0@0 as before, unknown labels may stand anywhere any number of times
    let block = records(&YES.repeat(2));
    assert_eq!(answer(&block), format!("6@{}", place(&block, "##STEREOMOLECULE= YES") + YES.len()));
}

/// "Read it as a known label after the core, in any order with RADICAL." Wrong: only behind STEREOPAIR,
/// where the paper's Table I has it; or anywhere.
#[test]
fn it_is_read_after_the_core_in_any_order_with_radical() {
    let radical = "##RADICAL=\n1 1\n";
    let coordinates = "##MAX_XYZ= 9\n##XYZ_FACTOR= 1\n##XYZ=\n1 1 2 3\n";
    let labels = "##STEREOPAIR=\n##STEREOCENTER=\n";
    for order in [
        [YES, radical, labels, coordinates],
        [radical, YES, coordinates, labels],
        [coordinates, labels, YES, radical],
        [labels, coordinates, radical, YES],
    ] {
        let read = table(&records(&order.concat()));
        assert_eq!((read[3], read[13]), (1, 1), "{order:?}");
    }
    for core in ["##CHARGE=\n+1 1\n", "##BONDLIST=\n1 2 S\n"] {
        // wrong: 0@0, the core is free to follow; or 6 at STEREOMOLECULE, which came too early
        let block = records(&format!("{YES}{core}"));
        assert_eq!(answer(&block), at_line(6, &block, core.lines().next().expect("a label line")));
    }
}

/// "Its only value is `YES`, on the label line or the next row."
#[test]
fn its_only_value_is_yes_on_the_label_line_or_the_next_row() {
    for record in [
        "= YES",
        "=YES",
        "=\tYES \r",
        "= YES $$ helix",
        "=YES$$",
        "=\nYES",
        "= $$ helix\nYES",
        "=\n \t\r\n YES",
    ] {
        let read = table(&records(&format!("##STEREOMOLECULE{record}\n")));
        assert_eq!(read[13], 1, "{record}");
    }
    for value in
        ["yes", "Yes", "NO", "YES.", "YES YES", "YES x", "Y E S", "\"YES\"", "YESS", "YE", "1", "$YES"]
    {
        // wrong: case does not matter, more fields are not looked at, or anything but NO will do
        let line = format!("##STEREOMOLECULE= {value}");
        let block = records(&format!("{line}\n"));
        assert_eq!(answer(&block), at_line(9, &block, &line));
        let block = records(&format!("##STEREOMOLECULE=\n{value}\n"));
        // wrong: the place of the label line
        assert_eq!(answer(&block), at_line(9, &block, value));
    }
}

/// "Table number 13 becomes 1." Wrong: another place, or a further number beside it.
#[test]
fn table_number_13_becomes_1() {
    let (with, without) = (table(&records(YES)), table(&records("")));
    let differ: Vec<usize> = (0..NUMBERS).filter(|&place| with[place] != without[place]).collect();
    assert_eq!(differ, [13]);
    assert_eq!((without[13], with[13]), (0, 1));
    // wrong: only where positions are given
    let reading = lent(&records(YES), NUMBERS + 2, FLOATS);
    assert_eq!((reading.table[13], &reading.table[NUMBERS..]), (1, &[NUMBER; 2][..]));
    assert!(reading.positions.iter().all(|float| float.to_bits() == 0));
}

/// "... and is written as a record after STEREOPAIR with the value on the label line."
#[test]
fn it_is_written_after_stereopair_with_the_value_on_the_label_line() {
    let block =
        records("## stereo-molecule =\n$$ helix\nYES\n##STEREOPAIR=\n##RADICAL=\n1 2\n##BLOCK_ID= 7\n");
    let form = written(&table(&block), &block).expect("a form");
    // wrong: the value below the label line, the record before RADICAL, or behind END
    assert!(form.ends_with("3 H\n##RADICAL=\n1 2\n##STEREOMOLECULE= YES\n##END=\n"), "{form}");
    assert_eq!(form.matches("YES").count(), 1);
    // wrong: `##STEREOMOLECULE=` or `NO` where there is none
    let form = written(&table(&records("")), &records("")).expect("a form");
    assert!(!form.contains("STEREO"), "{form}");
}

/// The way back: what is written is read to the same table, and written again to the same bytes.
#[test]
fn what_is_written_comes_back() {
    let mut random = Random::new(71);
    for _ in 0..3_000 {
        let block = sound_helical_block(&mut random);
        let read = table(&block);
        let form = written(&read, &block).expect("a form");
        assert!(form.ends_with("##STEREOMOLECULE= YES\n##END=\n"), "{form}");
        let back = table(form.as_bytes());
        assert_eq!((&back[..7], &back[13..]), (&read[..7], &read[13..]));
        assert_eq!(written(&back, form.as_bytes()).as_ref(), Ok(&form));
    }
}

/// "A sound table with 13 set has no centres and no pairs." Wrong: written all the same, and refused 13
/// when it is read again.
#[test]
fn a_sound_table_with_13_set_has_no_centres_and_no_pairs() {
    let (both, neither) = ([CENTRES, PAIRS].concat(), "##STEREOPAIR=\n##STEREOCENTER=\n".to_string());
    for (lists, sound) in [(CENTRES, false), (PAIRS, false), (&both, false), (&neither, true), ("", true)] {
        let block = records(lists);
        let mut read = table(&block);
        assert!(written(&read, &block).is_ok(), "{lists}");
        read[13] = 1;
        assert_eq!(written(&read, &block).err(), (!sound).then_some(21), "{lists}");
    }
    for number in [2, -1, 3, 256, 65_536, i32::MIN, i32::MAX] {
        // wrong: any number but 0 is a YES
        let mut read = table(&records(""));
        read[13] = number;
        assert_eq!(written(&read, &records("")), Err(21), "{number}");
    }
    for (place, number) in [(14, 1), (15, 1), (14, -1), (15, i32::MIN)] {
        // wrong: the three numbers from 13 on are free now
        let mut read = table(&records(YES));
        read[place] = number;
        assert_eq!(written(&read, &records(YES)), Err(21), "{number} at {place}");
    }
}

/// "Refusals: another value or a second row 9." Wrong: the same word again is dropped, as a bond is; or
/// the first row is told.
#[test]
fn a_second_row_is_9() {
    for first in [" YES", "\nYES", " $$ x\n\nYES"] {
        for second in ["YES ", "NO", "x $$ y", "1 P"] {
            let block = records(&format!("##STEREOMOLECULE={first}\n\n$$ x\n{second}\n"));
            assert_eq!(answer(&block), at_line(9, &block, second), "{first}");
        }
        // wrong: blank lines and comments are rows
        assert_eq!(answer(&records(&format!("##STEREOMOLECULE={first}\n\n$$ YES\n \t\r\n"))), "0@0");
    }
    // wrong: YES further down mends it
    let block = records("##STEREOMOLECULE=\nNO\nYES\n");
    assert_eq!(answer(&block), at_line(9, &block, "NO"));
}

/// "On the END line, before 15, no value 9." Wrong: at the label line, as for MOLFORM; or accepted, as an
/// empty list is.
#[test]
fn no_value_is_9_on_the_end_line_before_15() {
    for empty in ["", " $$ YES", "\n\n \t\n", "\n$$ YES", "\n##DATE=\nYES"] {
        let block = records(&format!("##STEREOMOLECULE={empty}\n"));
        assert_eq!(answer(&block), at_line(9, &block, "##END="), "{empty}");
        let other = changed(&block, "= H3", "= H4");
        // wrong: 15, since the formula is a record of the core
        assert_eq!(answer(&other), at_line(9, &other, "##END="), "{empty}");
    }
}

/// "... and YES beside any centre or pair row 13", on the same line and before 15. Wrong: on the row that
/// came second, or on the line of the YES.
#[test]
fn yes_beside_any_centre_or_pair_row_is_13_on_the_end_line_before_15() {
    let both = [CENTRES, PAIRS].concat();
    for lists in [CENTRES, PAIRS, &both, "##STEREOCENTER= 3 M a\n", "##STEREOPAIR= 3 2 0\n"] {
        for records_of in [format!("{YES}{lists}"), format!("{lists}{YES}")] {
            let block = records(&records_of);
            assert_eq!(answer(&block), at_line(13, &block, "##END="), "{records_of}");
            let other = changed(&block, "= H3", "= H4");
            // wrong: 15 before 13
            assert_eq!(answer(&other), at_line(13, &other, "##END="), "{records_of}");
        }
    }
}

/// A refused block leaves nothing of the YES: the 3,856 numbers are 0, number 13 with them.
#[test]
fn refusals_clear_number_13_too() {
    let mut random = Random::new(72);
    let mut refused = 0;
    for _ in 0..3_000 {
        let reading = lent(&generate::helical_block(&mut random), NUMBERS + 1, FLOATS + 1);
        assert_eq!((reading.table[NUMBERS], reading.positions[FLOATS]), (NUMBER, FLOAT));
        if reading.answer != "0@0" {
            refused += 1;
            assert!(reading.table[..NUMBERS].iter().all(|&number| number == 0), "{}", reading.answer);
        }
    }
    assert!(refused > 1_500, "only {refused} of 3,000 blocks are refused");
}

/// Check and walk judge as the reading does, in a file of several such blocks too.
#[test]
fn check_and_walk_judge_as_the_reading_does() {
    let beside = [YES, CENTRES].concat();
    let blocks = [YES, "##STEREOMOLECULE= NO\n", "##STEREOMOLECULE=\n", &beside].map(records);
    let [sound, no, empty, _] = blocks.each_ref().map(Vec::len);
    let ends = [sound, sound + no, sound + no + empty, blocks.concat().len()];
    let lines = [
        format!("B 0 {} 0 0 3 0\n", ends[0]),
        format!("B {} {} 9 {} 0 0\n", ends[0], ends[1], ends[0] + place(&blocks[1], "##STEREOMOLECULE= NO")),
        format!("B {} {} 9 {} 0 0\n", ends[1], ends[2], ends[2] - "##END=\n".len()),
        format!("B {} {} 13 {} 0 0\n", ends[2], ends[3], ends[3] - "##END=\n".len()),
    ];
    assert_eq!(walk_lines(&blocks.concat()), lines.concat());
    let mut random = Random::new(74);
    for _ in 0..1_000 {
        // the check's answer is compared there
        answer(&generate::helical_block(&mut random));
    }
}
