//! Damage to the three records of coordinates, aimed at 9, 10, 11 and 13 on their lines, at 6 by
//! their order, at 41 and 42, and at what comes before these two on the END line. A record is found
//! by its label in any spelling.

use super::damage::{chosen, lines, Shares};
use super::damage_records::{moved_record, record, with_other_formula, with_value};
use super::random::Random;
use crate::independent::lines::Label;
use crate::independent::reading::structure;

/// Each kind of damage with its share.
const DAMAGES: Shares<10> = [
    (8, other_most),
    (24, other_factor),
    (14, other_row),
    (18, other_atom),
    (12, other_order),
    (14, dropped_labels),
    (24, most_below),
    (6, moved),
    (3, formula_too),
    (3, end_with_value),
];

/// The block with one kind of damage to its coordinates.
pub fn damaged_coordinates(random: &mut Random, block: &[u8]) -> Vec<u8> {
    chosen(random, &DAMAGES, block)
}

const RECORDS: [Label; 3] = [Label::MaxXyz, Label::XyzFactor, Label::Xyz];

/// MAX_XYZ of another shape, empty, with a further row, at an end.
fn other_most(random: &mut Random, block: &[u8]) -> Vec<u8> {
    let values = [
        "",
        "+5",
        "-1",
        "1000000",
        "0000001",
        "5 6",
        "1.5",
        "1E3",
        "$$ 5",
        "x",
        "5\n6",
        "\n5",
        "999999\n\n7",
        "999999",
        "999999 $$ x",
        "999999\n$$ x\n",
        ".",
        "-0",
    ];
    with_value(block, Label::MaxXyz, random.pick(&values))
}

/// A factor of another shape, empty, with a further row, zero, at an end.
fn other_factor(random: &mut Random, block: &[u8]) -> Vec<u8> {
    let shapes = [
        "",
        ".",
        "1.2.3",
        "1234567890",
        "0.123456789",
        "+1",
        "-1",
        "1E-3",
        "1,5",
        "1 2",
        "..5",
        "5..",
        "$$ 1",
        "1\n.",
        "\n5",
        "0.1 A",
        "1\n1",
        ". 5",
    ];
    let zeros = ["0", "0.0", ".0", "0.", "000000000", ".000000000", "0 $$ 1"];
    let sound = ["000000001", ".000000001", "5.", "999999999", "1$$x", "1\n $$ x", "00000000.1"];
    let values = match random.below(20) {
        0..=8 => &shapes[..],
        9..=16 => &zeros[..],
        _ => &sound[..],
    };
    with_value(block, Label::XyzFactor, random.pick(values))
}

/// The places of the lines of XYZ, below its label line, that are rows.
fn rows(lines: &[Vec<u8>]) -> Vec<usize> {
    let Some((start, end)) = record(lines, Label::Xyz) else { return Vec::new() };
    let is_row = |index: &usize| lines[*index].iter().any(u8::is_ascii_digit);
    (start + 1..end).filter(is_row).collect()
}

/// The block with something done to its lines and one of XYZ's rows; where XYZ has none, a row that is
/// given is put below its label line instead.
fn with_row(
    random: &mut Random,
    block: &[u8],
    otherwise: &str,
    act: impl Fn(&mut Random, &mut Vec<Vec<u8>>, usize),
) -> Vec<u8> {
    let mut lines = lines(block);
    let rows = rows(&lines);
    if rows.is_empty() {
        if let Some((_, end)) = record(&lines, Label::Xyz) {
            lines.insert(end, format!("{otherwise}\n").into_bytes());
        }
    } else {
        let row = rows[random.below(rows.len())];
        act(random, &mut lines, row);
    }
    lines.concat()
}

/// A row with a field changed, added or taken away.
fn other_row(random: &mut Random, block: &[u8]) -> Vec<u8> {
    with_row(random, block, "1 0 0", |random, lines, row| {
        let text = String::from_utf8_lossy(&lines[row]).into_owned();
        let mut fields: Vec<&str> = text.split_ascii_whitespace().collect();
        let place = random.below(fields.len().min(4));
        let others = ["1000000", "-1000000", "0000001", "+", "-", "1.0", "1E1", "x", "+-1", "--1", "1,2"];
        match random.below(4) {
            0 => drop(fields.remove(place)),
            1 => fields.insert(place, random.pick(&["0", "x", "$"])),
            2 => fields[0] = random.pick(&["+1", "-1", "1.", "0000001", "C"]),
            _ => fields[place] = random.pick(&others),
        }
        lines[row] = format!("{}\n", fields.join(" ")).into_bytes();
    })
}

/// A row of an atom that is not listed, with the right shape or not.
fn other_atom(random: &mut Random, block: &[u8]) -> Vec<u8> {
    with_row(random, block, "0 0 0 0", |random, lines, row| {
        let new =
            random.pick(&["0 1 1 1", "257 1 1 1", "999999 0 0 0", "26 -1 +1 0", "000000 0 0 0", "99 0 0"]);
        if random.chance(50) {
            lines[row] = format!("{new}\n").into_bytes();
        } else {
            lines.insert(row + 1, format!("{new}\n").into_bytes());
        }
    })
}

/// A row again, or moved behind a later one.
fn other_order(random: &mut Random, block: &[u8]) -> Vec<u8> {
    with_row(random, block, "1 0 0 0\n1 0 0 0", |random, lines, row| {
        let again = if random.chance(50) { lines[row].clone() } else { b"1 0 0 0\n".to_vec() };
        let behind = rows(lines).into_iter().filter(|other| *other >= row).collect::<Vec<usize>>();
        lines.insert(behind[random.below(behind.len())] + 1, again);
    })
}

/// One or two of the three records taken away, or their labels misspelt.
fn dropped_labels(random: &mut Random, block: &[u8]) -> Vec<u8> {
    let mut lines = lines(block);
    let mut records = RECORDS;
    random.shuffle(&mut records);
    for of in &records[..1 + random.below(2)] {
        let Some((start, end)) = record(&lines, *of) else { continue };
        if random.chance(30) {
            lines[start].splice(2..2, b"X".iter().copied());
        } else {
            lines.drain(start..end);
        }
    }
    lines.concat()
}

/// MAX_XYZ one below the largest value, or just as large.
fn most_below(random: &mut Random, block: &[u8]) -> Vec<u8> {
    let Ok(content) = structure(block) else { return block.to_vec() };
    let sizes = content.coordinates.rows.iter().flat_map(|row| row.values).map(i32::abs);
    let largest = sizes.max().unwrap_or(0);
    let most = match random.below(10) {
        0 => largest,
        1 => 0,
        _ => largest - 1,
    };
    with_value(block, Label::MaxXyz, &most.max(0).to_string())
}

/// One of the three records again, or before a record of the core.
fn moved(random: &mut Random, block: &[u8]) -> Vec<u8> {
    let of = RECORDS[random.below(3)];
    moved_record(random, block, of)
}

/// A formula that does not agree, and 41 or 42 on the same END line.
fn formula_too(random: &mut Random, block: &[u8]) -> Vec<u8> {
    let other = if random.chance(50) { dropped_labels(random, block) } else { most_below(random, block) };
    with_other_formula(&other)
}

/// A value on the END line, and 41 or 42 there.
fn end_with_value(random: &mut Random, block: &[u8]) -> Vec<u8> {
    let other = if random.chance(50) { dropped_labels(random, block) } else { most_below(random, block) };
    with_value(&other, Label::End, "x")
}
