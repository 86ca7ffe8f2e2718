//! Sound blocks: a random structure spelt in one of the many ways that document 01 accepts.

use super::coordinates::coordinates;
use super::random::Random;
use super::spelling::Spelling;
use super::structures::structure;
use crate::independent::coordinates::CoordinateRow;
use crate::independent::table::{Pair, Spread, Structure};

/// A block that is accepted; some have coordinates, some are helical.
pub fn sound_block(random: &mut Random) -> Vec<u8> {
    let mut content = structure(random);
    if random.chance(12) {
        content.coordinates = coordinates(random, content.atoms.len() as i32);
    }
    spelt(random, &content)
}

/// A structure as a block, with noise wherever it is allowed.
pub fn spelt(random: &mut Random, content: &Structure) -> Vec<u8> {
    let mut spelling = Spelling::new(random);
    spelling.text_record("TITLE");
    spelling.skipped_records();
    spelling.label("JCAMP-CS");
    spelling.value("3.7");
    let mut records = records(&mut spelling, content);
    if content.block_id != 0 {
        let place = spelling.random.below(records.len() + 1);
        records.insert(place, Record::BlockId);
    }
    for record in &records {
        spelling.skipped_records();
        spell_record(&mut spelling, content, *record);
    }
    spelling.skipped_records();
    spelling.label("END");
    spelling.end_line();
    while spelling.random.chance(4) {
        spelling.blank_line();
    }
    spelling.finished()
}

#[derive(Clone, Copy, PartialEq)]
enum Record {
    Origin,
    Owner,
    Molform,
    Atomlist,
    Bondlist,
    Charge,
    Radical,
    Stereocenter,
    Stereopair,
    Stereomolecule,
    MaxXyz,
    XyzFactor,
    Xyz,
    BlockId,
}

/// The records after JCAMP-CS in an allowed order; empty lists are mostly left out.
fn records(spelling: &mut Spelling, content: &Structure) -> Vec<Record> {
    let mut records = vec![Record::Origin, Record::Owner, Record::Molform, Record::Atomlist];
    if !content.bonds.is_empty() || spelling.random.chance(10) {
        records.push(Record::Bondlist);
    }
    if !content.charges.is_empty() || spelling.random.chance(10) {
        records.push(Record::Charge);
    }
    let mut shell = Vec::new();
    if !content.radicals.is_empty() || spelling.random.chance(10) {
        shell.push(Record::Radical);
    }
    // the labels of centres and pairs stand beside the YES too, as long as they have no rows
    let empty = if content.helical { 25 } else { 10 };
    if !content.centres.is_empty() || spelling.random.chance(empty) {
        shell.push(Record::Stereocenter);
    }
    if !content.pairs.is_empty() || spelling.random.chance(empty) {
        shell.push(Record::Stereopair);
    }
    if content.helical {
        shell.push(Record::Stereomolecule);
    }
    if content.coordinates.most.is_some() {
        shell.extend([Record::MaxXyz, Record::XyzFactor, Record::Xyz]);
    }
    // programs write the shell in the paper's order
    if spelling.random.chance(70) {
        spelling.random.shuffle(&mut shell);
    }
    records.extend(shell);
    records
}

fn spell_record(spelling: &mut Spelling, content: &Structure, record: Record) {
    match record {
        Record::Origin => spelling.text_record("ORIGIN"),
        Record::Owner => spelling.text_record("OWNER"),
        Record::MaxXyz | Record::XyzFactor | Record::Xyz => spell_coordinates(spelling, content, record),
        Record::Stereomolecule => spelling.helical(),
        Record::BlockId => {
            spelling.label("BLOCK_ID");
            let number = spelling.number(content.block_id);
            spelling.value(&number);
        }
        Record::Molform => {
            spelling.label("MOLFORM");
            let formula = spelling.formula(content);
            spelling.value(&formula);
        }
        Record::Atomlist
        | Record::Bondlist
        | Record::Charge
        | Record::Radical
        | Record::Stereocenter
        | Record::Stereopair => {
            let (name, rows) = list_of(spelling, content, record);
            spelling.list(name, rows);
        }
    }
}

/// The label and the rows of a list; STEREOPAIR is the last of them.
fn list_of(spelling: &mut Spelling, content: &Structure, record: Record) -> (&'static str, Rows) {
    match record {
        Record::Atomlist => ("ATOMLIST", atom_rows(spelling, content)),
        Record::Bondlist => ("BONDLIST", bond_rows(spelling, content)),
        Record::Charge => ("CHARGE", spread_rows(spelling, &content.charges, true)),
        Record::Radical => ("RADICAL", spread_rows(spelling, &content.radicals, false)),
        Record::Stereocenter => ("STEREOCENTER", centre_rows(spelling, content)),
        _ => ("STEREOPAIR", pair_rows(spelling, &content.pairs)),
    }
}

/// The three records of coordinates; XYZ is the last of them.
fn spell_coordinates(spelling: &mut Spelling, content: &Structure, record: Record) {
    match record {
        Record::MaxXyz => {
            spelling.label_among(&["MAX_XYZ", "MAX_XYZ", "max-xyz", "MAXXYZ", "Max XYZ"]);
            let most = spelling.number(content.coordinates.most.unwrap_or_default());
            spelling.value(&most);
        }
        Record::XyzFactor => {
            spelling.label_among(&["XYZ_FACTOR", "XYZ_FACTOR", "XYZ FACTOR", "xyzfactor", "XYZ/Factor"]);
            let factor = content.coordinates.factor.map(|factor| spelling.factor(factor));
            spelling.value(&factor.unwrap_or_default());
        }
        _ => {
            let rows = coordinate_rows(spelling, &content.coordinates.rows);
            let name = spelling.random.pick(&["XYZ", "XYZ", "XYZ", "xyz", "X_Y-Z"]);
            spelling.list(name, rows);
        }
    }
}

type Rows = Vec<Vec<String>>;

fn atom_rows(spelling: &mut Spelling, content: &Structure) -> Rows {
    let mut rows = Vec::new();
    for (atom, number) in content.atoms.iter().zip(1..) {
        let mut row = vec![spelling.number(number), spelling.symbol(atom.element, atom.mass)];
        if atom.hydrogens > 0 || spelling.random.chance(10) {
            row.push(spelling.number(atom.hydrogens));
        }
        rows.push(row);
    }
    rows
}

/// Two atom numbers in either order.
fn two_ends(spelling: &mut Spelling, lower: i32, higher: i32) -> Vec<String> {
    let mut ends = vec![spelling.number(lower), spelling.number(higher)];
    spelling.random.shuffle(&mut ends);
    ends
}

/// Bonds in any order, some of them again.
fn bond_rows(spelling: &mut Spelling, content: &Structure) -> Rows {
    let mut bonds = content.bonds.clone();
    if !bonds.is_empty() && spelling.random.chance(25) {
        bonds.push(bonds[spelling.random.below(bonds.len())]);
    }
    spelling.random.shuffle(&mut bonds);
    let mut rows = Vec::new();
    for bond in bonds {
        let mut row = two_ends(spelling, bond.lower, bond.higher);
        row.push("SDTQA"[bond.kind as usize - 1..bond.kind as usize].to_string());
        rows.push(row);
    }
    rows
}

fn spread_rows(spelling: &mut Spelling, spreads: &[Spread], signed: bool) -> Rows {
    let mut spreads = spreads.to_vec();
    spelling.random.shuffle(&mut spreads);
    let mut rows = Vec::new();
    for spread in spreads {
        let digits = spelling.number(spread.value.abs());
        let sign = match spread.value {
            ..0 => "-",
            _ if signed && spelling.random.chance(70) => "+",
            _ => "",
        };
        let mut row = vec![format!("{sign}{digits}")];
        row.extend(spread.atoms.iter().map(|&atom| spelling.number(atom)));
        rows.push(row);
    }
    rows
}

fn group_field(spelling: &mut Spelling, group: i32) -> Option<String> {
    match group {
        0 if spelling.random.chance(60) => None,
        0 => Some("0".to_string()),
        _ => Some(char::from(group as u8).to_string()),
    }
}

fn centre_rows(spelling: &mut Spelling, content: &Structure) -> Rows {
    let mut rows = Vec::new();
    for centre in &content.centres {
        let descriptor = if centre.descriptor == 1 { "P" } else { "M" };
        let mut row = vec![spelling.number(centre.atom), descriptor.to_string()];
        row.extend(group_field(spelling, centre.group));
        rows.push(row);
    }
    spelling.random.shuffle(&mut rows);
    rows
}

fn pair_rows(spelling: &mut Spelling, pairs: &[Pair]) -> Rows {
    let mut rows = Vec::new();
    for pair in pairs {
        let mut row = two_ends(spelling, pair.lower, pair.higher);
        row.push(["0", "P", "M"][pair.descriptor as usize].to_string());
        row.extend(group_field(spelling, pair.group));
        rows.push(row);
    }
    spelling.random.shuffle(&mut rows);
    rows
}

/// Rows in their order, with signs where they may stand.
fn coordinate_rows(spelling: &mut Spelling, coordinates: &[CoordinateRow]) -> Rows {
    let mut rows = Vec::new();
    for row in coordinates {
        let mut fields = vec![spelling.number(row.atom)];
        fields.extend(row.values.map(|value| spelling.signed(value)));
        rows.push(fields);
    }
    rows
}
