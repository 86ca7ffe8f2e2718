//! Damage to the rows of the lists and to the formula, aimed at refusals 9 to 15.

use super::damage::{inserted_byte, label_lines, lines};
use super::random::Random;

/// A run of digits replaced by a number at some edge.
pub fn disturbed_number(random: &mut Random, block: &[u8]) -> Vec<u8> {
    let digit = |place: usize| block.get(place).is_some_and(u8::is_ascii_digit);
    let is_start = |place: &usize| digit(*place) && (*place == 0 || !digit(*place - 1));
    let starts: Vec<usize> = (0..block.len()).filter(is_start).collect();
    if starts.is_empty() {
        return block.to_vec();
    }
    let start = starts[random.below(starts.len())];
    let mut end = start;
    while digit(end) {
        end += 1;
    }
    let numbers = [
        "0", "1", "2", "3", "9", "15", "16", "99", "100", "256", "257", "300", "301", "9999", "10000",
        "999999", "1000000", "000001", "0000001", "-1", "+1", "000", "",
    ];
    [&block[..start], random.pick(&numbers).as_bytes(), &block[end..]].concat()
}

/// Rows put below the label line of their list; where it is missing, it is put before END.
fn with_rows(random: &mut Random, block: &[u8], rows: &[(&str, &str)]) -> Vec<u8> {
    let mut lines = lines(block);
    let (label, rows) = rows[random.below(rows.len())];
    let label = format!("##{label}=");
    let is_list = |line: &Vec<u8>| line.starts_with(label.as_bytes());
    let mut added = format!("{rows}\n");
    let place = match lines.iter().position(is_list) {
        Some(place) if random.chance(50) => place + 1,
        Some(place) => {
            let below = lines[place + 1..].iter().position(|line| line.starts_with(b"##"));
            below.map_or(lines.len(), |below| place + 1 + below)
        }
        None => {
            added = format!("{label}\n{rows}\n");
            label_lines(&lines).last().copied().unwrap_or(lines.len())
        }
    };
    lines.insert(place, added.into_bytes());
    lines.concat()
}

pub fn number_out_of_range(random: &mut Random, block: &[u8]) -> Vec<u8> {
    let rows = [
        ("CHARGE", "+100 1"),
        ("CHARGE", "0"),
        ("CHARGE", "-100 1 9"),
        ("CHARGE", "-0 1"),
        ("RADICAL", "16 1"),
        ("RADICAL", "0"),
        ("RADICAL", "000 1 1"),
        ("BLOCK_ID", "0"),
        ("ATOMLIST", "1 C 16"),
        ("ATOMLIST", "1 ^0C"),
        ("ATOMLIST", "2 ^301Xx"),
    ];
    with_rows(random, block, &rows)
}

pub fn unlisted_atom(random: &mut Random, block: &[u8]) -> Vec<u8> {
    let rows = [
        ("BONDLIST", "1 99 S"),
        ("BONDLIST", "99 99 D"),
        ("BONDLIST", "1 0 T"),
        ("CHARGE", "+1 1 999999"),
        ("CHARGE", "-1 0"),
        ("RADICAL", "2 99 99"),
        ("STEREOCENTER", "99 P"),
        ("STEREOCENTER", "0 M A"),
        ("STEREOPAIR", "99 1 P"),
        ("STEREOPAIR", "1 257 0 a"),
        ("ATOMLIST", "99 C"),
        ("ATOMLIST", "0 Xx"),
    ];
    with_rows(random, block, &rows)
}

pub fn clashing_row(random: &mut Random, block: &[u8]) -> Vec<u8> {
    let rows = [
        ("BONDLIST", "1 1 S"),
        ("BONDLIST", "1 2 S\n2 1 D"),
        ("BONDLIST", "3 2 A\n3 2 T"),
        ("BONDLIST", "1 2 S\n2 1 S"),
        ("CHARGE", "+1 1 1"),
        ("CHARGE", "+1\n+2"),
        ("CHARGE", "-1 1\n-1 2 1"),
        ("CHARGE", "-1 1\n-1"),
        ("RADICAL", "1 2 2"),
        ("RADICAL", "1\n2"),
        ("RADICAL", "2 1\n3 1"),
        ("STEREOCENTER", "1 P\n1 P"),
        ("STEREOCENTER", "1 M A\n1 M a"),
        ("STEREOPAIR", "1 1 P"),
        ("STEREOPAIR", "1 2 0\n1 2 0"),
        ("STEREOPAIR", "1 2 P\n2 1 P"),
        ("STEREOMOLECULE", "YES"),
    ];
    with_rows(random, block, &rows)
}

/// Letters of a symbol or kind replaced, in a row or in the formula.
pub fn other_symbol(random: &mut Random, block: &[u8]) -> Vec<u8> {
    let upper: Vec<usize> = (0..block.len()).filter(|&place| block[place].is_ascii_uppercase()).collect();
    let after_blank: Vec<usize> =
        upper.into_iter().filter(|&place| place > 0 && b" \t".contains(&block[place - 1])).collect();
    if after_blank.is_empty() {
        return block.to_vec();
    }
    let start = after_blank[random.below(after_blank.len())];
    let is_two = block.get(start + 1).is_some_and(u8::is_ascii_lowercase);
    let end = start + if is_two { 2 } else { 1 };
    let symbols =
        ["Xx", "J", "Rf", "^2D", "^13T", "Hx", "ne", "NE", "Uuq", "X", "s", "L", "G", "^301C", "Zz"];
    [&block[..start], random.pick(&symbols).as_bytes(), &block[end..]].concat()
}

pub fn disturbed_formula(random: &mut Random, block: &[u8]) -> Vec<u8> {
    let mut lines = lines(block);
    let Some(line) = lines.iter_mut().find(|line| line.starts_with(b"##MOLFORM")) else {
        return inserted_byte(random, block);
    };
    let more = [
        " C", " *", "* ", "2", "/2", " C0", " C10000", " Xx", " ^2D", " CO", "*C2", " He", "\t^13C", "^13C",
        " /2", " H1", " ^0D", " (C)", " T", " C9999",
    ];
    let start = line.iter().position(|&byte| byte == b'=').map_or(line.len(), |equals| equals + 1);
    let end = line.iter().rposition(|byte| !b"\r\n ".contains(byte)).map_or(start, |last| last + 1);
    let place = if random.chance(60) { end.max(start) } else { start };
    let added = random.pick(&more).bytes();
    line.splice(place..place, added);
    lines.concat()
}
