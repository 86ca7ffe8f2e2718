//! What the tests of coordinates, of STEREOMOLECULE and of fragments share: blocks of three atoms with
//! such records, blocks of any atoms and bonds, read into tables that were full of something else, and
//! what is written of a table.
#![allow(dead_code)] // each test takes what it needs

use galebonnet_tests::generate::limits_coordinates::{three_atoms, three_records};
use galebonnet_tests::independent::{self, check, read, write, Position};

/// Numbers and floats of the tables, and what stands in them before.
pub const NUMBERS: usize = 3856;
pub const FLOATS: usize = 1024;
pub const NUMBER: i32 = -7;
pub const FLOAT: f64 = f64::NEG_INFINITY;

/// A reading: its answer as `number@place`, and both tables.
pub struct Reading {
    pub answer: String,
    pub table: Vec<i32>,
    pub positions: Vec<f64>,
}

/// A block read into tables of these lengths.
pub fn lent(block: &[u8], numbers: usize, floats: usize) -> Reading {
    let (mut table, mut positions) = (vec![NUMBER; numbers], vec![FLOAT; floats]);
    let answer = read(block, &mut table, &mut positions);
    Reading { answer: format!("{}@{}", answer.number, answer.place), table, positions }
}

/// The answer to a block; the check judges as the reading does.
pub fn answer(block: &[u8]) -> String {
    let answer = lent(block, NUMBERS, FLOATS).answer;
    let check = check(block);
    assert_eq!(format!("{}@{}", check >> 32, check & 0xffff_ffff), answer);
    answer
}

/// The structure table of an accepted block.
pub fn table(block: &[u8]) -> Vec<i32> {
    let reading = lent(block, NUMBERS, FLOATS);
    assert_eq!(reading.answer, "0@0", "{}", block.escape_ascii());
    reading.table
}

/// What is written of a table: its form, or the refusal number; a refusal leaves the buffer alone.
pub fn written(table: &[i32], texts: &[u8]) -> Result<String, u32> {
    let mut buffer = vec![b'?'; 32_768];
    let written = write(table, texts, &mut buffer);
    assert!(buffer[written.count..].iter().all(|&byte| byte == b'?'));
    if written.number != 0 {
        assert_eq!(written.count, 0);
        return Err(written.number);
    }
    buffer.truncate(written.count);
    Ok(String::from_utf8(buffer).expect("ASCII"))
}

/// The position of an atom of an accepted block.
pub fn position(block: &[u8], atom: usize) -> Position {
    let reading = lent(block, NUMBERS, FLOATS);
    assert_eq!(reading.answer, "0@0", "{}", block.escape_ascii());
    independent::position(&reading.positions, atom)
}

/// Where a line starts in a block.
pub fn place(block: &[u8], line: &str) -> usize {
    let text = String::from_utf8_lossy(block);
    1 + text.find(&format!("\n{line}\n")).unwrap_or_else(|| panic!("no line {line} in {text}"))
}

/// The answer `number@place` with the place of a line.
pub fn at_line(number: u32, block: &[u8], line: &str) -> String {
    format!("{number}@{}", place(block, line))
}

/// Three atoms, MAX_XYZ 999999, a factor, rows below the label line.
pub fn rows(factor: &str, rows: &str) -> Vec<u8> {
    three_records(" 999999", &format!(" {factor}"), &format!("\n{rows}"))
}

/// Three atoms with records as they stand.
pub fn records(records: &str) -> Vec<u8> {
    three_atoms(records)
}

/// The first coordinate of atom 1 for a factor and a row's value.
pub fn first_coordinate(factor: &str, value: &str) -> f64 {
    match position(&rows(factor, &format!("1 {value} 0 0")), 1) {
        Position::At(x, _, _) => x,
        Position::NotGiven => panic!("no position"),
    }
}

/// Floats by their bits: -0.0 is another one than 0.0.
pub fn bits(floats: &[f64]) -> Vec<u64> {
    floats.iter().map(|float| float.to_bits()).collect()
}

/// A block of atoms and bonds as their rows have them, `O 2, Na` and `1 2 S, 1 3 A`, with a formula.
pub fn bonded_as(formula: &str, atoms: &str, bonds: &str) -> Vec<u8> {
    let rows: String =
        atoms.split(", ").zip(1..).map(|(atom, number)| format!("{number} {atom}\n")).collect();
    let bonds = if bonds.is_empty() { String::new() } else { format!("##BONDLIST=\n{bonds}\n") };
    let head = "##TITLE= t\n##JCAMP-CS= 3.7\n##ORIGIN=\n##OWNER=\n";
    format!("{head}##MOLFORM= {formula}\n##ATOMLIST=\n{rows}{}##END=\n", bonds.replace(", ", "\n"))
        .into_bytes()
}

/// Such a block with the formula that names each atom by itself.
pub fn bonded(atoms: &str, bonds: &str) -> Vec<u8> {
    let entry = |atom: &str| match atom.split_once(' ') {
        Some((symbol, hydrogens)) => format!("{symbol} H{hydrogens}"),
        None => atom.to_string(),
    };
    bonded_as(&atoms.split(", ").map(entry).collect::<Vec<String>>().join(" "), atoms, bonds)
}

/// The formula in a written form.
pub fn formula_in(form: &str) -> &str {
    form.lines().find_map(|line| line.strip_prefix("##MOLFORM= ")).expect("a formula")
}

/// The formula that is written of an accepted block.
pub fn written_formula(block: &[u8]) -> String {
    formula_in(&written(&table(block), block).expect("a form")).to_string()
}

/// The formula that is written of atoms and bonds.
pub fn formula(atoms: &str, bonds: &str) -> String {
    written_formula(&bonded(atoms, bonds))
}
