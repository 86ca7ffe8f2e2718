//! Damage to STEREOMOLECULE, aimed at 9 on its row, at 9 and 13 on the END line and what comes before and
//! behind them there, and at 6 by its order. The record is found by its label in any spelling.

use super::damage::{chosen, lines, Shares};
use super::damage_records::{before_end, moved_record, record, with_other_formula, with_value, without};
use super::random::Random;
use crate::independent::lines::{value, Label};
use crate::independent::reading::structure;

/// Each kind of damage with its share.
const DAMAGES: Shares<6> = [
    (20, other_value),
    (14, second_row),
    (16, no_value),
    (20, beside_rows),
    (14, moved),
    (16, several_faults),
];

/// The block with one kind of damage to its STEREOMOLECULE.
pub fn damaged_helical(random: &mut Random, block: &[u8]) -> Vec<u8> {
    chosen(random, &DAMAGES, block)
}

/// The block with all that follows the `=` of STEREOMOLECULE in its record replaced.
fn with_content(block: &[u8], new: &str) -> Vec<u8> {
    let mut lines = lines(block);
    if let Some((start, end)) = record(&lines, Label::Stereomolecule) {
        lines.drain(start + 1..end);
        let line = &mut lines[start];
        line.truncate(line.len() - value(line).len());
        line.extend(format!("{new}\n").bytes());
    }
    lines.concat()
}

/// Another value than YES: on the label line, on the next, or behind blank lines and comments.
fn other_value(random: &mut Random, block: &[u8]) -> Vec<u8> {
    let values = [
        "yes", "Yes", "yES", "NO", "YES.", "YES YES", "YES x", "Y E S", "\"YES\"", "YESS", "YE", "Y",
        "YES $", "$YES", "1", "YES=", "YES\tYES", "-YES", "YE S", "=YES", "1 P", "Y$$ES",
    ];
    let before = random.pick(&[" ", "", "\t", "\n", "\n ", "\n\n", " $$ YES\n", "\n \t\n$$ YES\n "]);
    with_content(block, &format!("{before}{}", random.pick(&values)))
}

/// A second row, the same word too; and what looks like one and is none.
fn second_row(random: &mut Random, block: &[u8]) -> Vec<u8> {
    let first = random.pick(&[" YES", "\nYES", "YES $$ x", "\n\n$$ x\nYES\r", " YES\n\n$$ YES"]);
    let second =
        random.pick(&["YES", "YES", " YES $$ x", "NO", "x", "yes", "1 P", "\nYES", "$$ x\n\tYES", "$"]);
    let none = random.pick(&["", "$$ YES", " \t\r", "\n\n", "##DATE= x\nYES", "##STEREOMOLECULES=\nYES"]);
    with_content(block, &format!("{first}\n{}", if random.chance(90) { second } else { none }))
}

/// The record without a value.
fn no_value(random: &mut Random, block: &[u8]) -> Vec<u8> {
    let empty =
        ["", " ", "\t\r", " $$ YES", "\n", "\n\n$$ YES\n", "\n \t\r", "\n##DATE=\nYES", " $$\n##X= YES\nYES"];
    with_content(block, random.pick(&empty))
}

/// A row of a list: below its label line, or with its label before or behind STEREOMOLECULE.
fn add_row(random: &mut Random, lines: &mut Vec<Vec<u8>>, (of, name): (Label, &str), row: &str) {
    let (place, added) = match (record(lines, of), record(lines, Label::Stereomolecule)) {
        (Some((start, _)), _) => (start + 1, format!("{row}\n")),
        (None, Some((start, end))) => {
            (if random.chance(50) { start } else { end }, format!("##{name}=\n{row}\n"))
        }
        (None, None) => return,
    };
    lines.insert(place, added.into_bytes());
}

/// A centre, a pair or both beside the YES.
fn beside_rows(random: &mut Random, block: &[u8]) -> Vec<u8> {
    let atoms = structure(block).map_or(0, |content| content.atoms.len());
    let mut lines = lines(block);
    let choice = random.below(3);
    if choice != 0 || atoms < 2 {
        let row = random.pick(&["1 P", "1 M A", "1 M 0", "1 P z $$ x"]);
        add_row(random, &mut lines, (Label::Stereocenter, "STEREOCENTER"), row);
    }
    if choice != 1 && atoms >= 2 {
        let row = random.pick(&["1 2 P", "2 1 M", "1 2 0", "2 1 0 a"]);
        add_row(random, &mut lines, (Label::Stereopair, "STEREOPAIR"), row);
    }
    lines.concat()
}

/// The record again, or before a record of the core.
fn moved(random: &mut Random, block: &[u8]) -> Vec<u8> {
    moved_record(random, block, Label::Stereomolecule)
}

/// No value, or a row beside the YES, and other faults on the same END line.
fn several_faults(random: &mut Random, block: &[u8]) -> Vec<u8> {
    let mut other = if random.chance(50) { no_value(random, block) } else { beside_rows(random, block) };
    if random.chance(25) {
        other = without(&other, Label::Owner);
    }
    if random.chance(25) {
        other = with_value(&other, Label::End, "x");
    }
    if random.chance(50) {
        other = with_other_formula(&other);
    }
    if random.chance(50) {
        other = other_coordinates(random, &other);
    }
    other
}

/// Coordinates that are refused 41, 42 or both at END.
fn other_coordinates(random: &mut Random, block: &[u8]) -> Vec<u8> {
    let has_them = record(&lines(block), Label::Xyz).is_some();
    match random.below(3) {
        0 if has_them => without(block, Label::XyzFactor),
        1 if has_them => without(&with_value(block, Label::MaxXyz, "0"), Label::XyzFactor),
        _ if has_them => with_value(block, Label::MaxXyz, "0"),
        0 => before_end(block, "##XYZ=\n"),
        1 => before_end(block, "##XYZ=\n1 1 0 0\n##MAX_XYZ= 0\n"),
        _ => before_end(block, "##MAX_XYZ= 0\n##XYZ_FACTOR= 1\n##XYZ=\n1 1 0 0\n"),
    }
}
