//! Writing a table: document 01, "Refusal numbers" (writing) and "The one written form"; requests L1 (the
//! formula's fragments) and L4 (number 13). Soundness is tested item by item, in the order of open-points I.

use super::elements::{written, written_order};
use super::formula::listed;
use super::groups::groups;
use super::lines::{is_allowed, is_blank};
use super::table::*;

/// A refusal number and the count of bytes written (0 where refused).
#[derive(Clone, Copy, Debug, PartialEq, Eq)]
pub struct Written {
    pub number: u32,
    pub count: usize,
}

/// Writes a table whose texts stand in `texts` into a buffer. Refusals in the order 1, 21, 23, 22.
pub fn write(table: &[i32], texts: &[u8], buffer: &mut [u8]) -> Written {
    if table.len() < NUMBERS {
        return Written { number: 1, count: 0 };
    }
    if !is_sound(table, texts) {
        return Written { number: 21, count: 0 };
    }
    let form = form(&taken_out(table), texts);
    if form.len() > LONGEST_BLOCK {
        return Written { number: 23, count: 0 };
    }
    if form.len() > buffer.len() {
        return Written { number: 22, count: 0 };
    }
    buffer[..form.len()].copy_from_slice(&form);
    Written { number: 0, count: form.len() }
}

/// Each of the six lists: its count's place, where its rows start, a row's numbers, its limit.
const LISTS: [(usize, usize, usize, usize); 6] = [
    (0, ATOMS_FROM, 5, ATOMS),
    (1, BONDS_FROM, 3, BONDS),
    (2, CHARGES_FROM, 1, SPREADS),
    (3, RADICALS_FROM, 1, SPREADS),
    (4, CENTRES_FROM, 3, CENTRES),
    (5, PAIRS_FROM, 4, PAIRS),
];

/// Whether the table is sound with its texts. The counts come first: they bound the rest.
pub fn is_sound(table: &[i32], texts: &[u8]) -> bool {
    counts_are_sound(table)
        && atoms_are_sound(table)
        && bonds_are_sound(table)
        && spreads_are_sound(table, 2, 3, |value| (-99..=99).contains(&value) && value != 0)
        && spreads_are_sound(table, 3, 4, |value| (1..=15).contains(&value))
        && centres_are_sound(table)
        && pairs_are_sound(table)
        && helical_is_sound(table)
        && unused_numbers_are_zero(table)
        && (0..3).all(|which| text_is_sound(table, which, texts))
}

fn counts_are_sound(table: &[i32]) -> bool {
    let within = |&(count, _, _, limit): &(usize, usize, usize, usize)| {
        0 <= table[count] && table[count] <= limit as i32
    };
    table[0] >= 1 && LISTS.iter().all(within) && (0..=999_999).contains(&table[6])
}

/// The used rows of a list.
fn used(table: &[i32], list: usize) -> std::slice::ChunksExact<'_, i32> {
    let (count, from, width, _) = LISTS[list];
    table[from..from + table[count] as usize * width].chunks_exact(width)
}

fn atoms_are_sound(table: &[i32]) -> bool {
    used(table, 0).all(|atom| {
        (1..=103).contains(&atom[0])
            && (0..=300).contains(&atom[1])
            && (0..=15).contains(&atom[2])
            && (0..=table[2]).contains(&atom[3])
            && (0..=table[3]).contains(&atom[4])
    })
}

/// Lower before higher, both listed, pairs strictly ascending: no clash and no repetition.
fn ends_are_sound(table: &[i32], list: usize) -> bool {
    let ends: Vec<(i32, i32)> = used(table, list).map(|row| (row[0], row[1])).collect();
    let listed = |&(lower, higher): &(i32, i32)| 1 <= lower && lower < higher && higher <= table[0];
    ends.iter().all(listed) && ends.windows(2).all(|two| two[0] < two[1])
}

fn bonds_are_sound(table: &[i32]) -> bool {
    ends_are_sound(table, 1) && used(table, 1).all(|bond| (1..=5).contains(&bond[2]))
}

/// Values in range; rows ascend by lowest atom, and only the last may have none.
fn spreads_are_sound(table: &[i32], list: usize, column: usize, fits: fn(i32) -> bool) -> bool {
    let rows = table[list];
    let lowest = |row: i32| used(table, 0).position(|atom| atom[column] == row);
    let lowest_atoms: Vec<Option<usize>> = (1..=rows).map(lowest).collect();
    let ascend = |two: &[Option<usize>]| match (two[0], two[1]) {
        (Some(former), Some(latter)) => former < latter,
        (Some(_), None) => true,
        (None, _) => false,
    };
    used(table, list).all(|value| fits(value[0])) && lowest_atoms.windows(2).all(ascend)
}

fn is_group(number: i32) -> bool {
    number == 0 || (65..=90).contains(&number) || (97..=122).contains(&number)
}

fn centres_are_sound(table: &[i32]) -> bool {
    let atoms: Vec<i32> = used(table, 4).map(|centre| centre[0]).collect();
    atoms.iter().all(|atom| (1..=table[0]).contains(atom))
        && atoms.windows(2).all(|two| two[0] < two[1])
        && used(table, 4).all(|centre| (1..=2).contains(&centre[1]) && is_group(centre[2]))
}

fn pairs_are_sound(table: &[i32]) -> bool {
    ends_are_sound(table, 5) && used(table, 5).all(|pair| (0..=2).contains(&pair[2]) && is_group(pair[3]))
}

/// Number 13 is 0 or 1, and "a sound table with 13 set has no centres and no pairs".
fn helical_is_sound(table: &[i32]) -> bool {
    match table[HELICAL_AT] {
        0 => true,
        1 => table[4] == 0 && table[5] == 0,
        _ => false,
    }
}

/// 14, 15 and every number of an unused row are 0.
fn unused_numbers_are_zero(table: &[i32]) -> bool {
    let rest = |&(count, from, width, limit): &(usize, usize, usize, usize)| {
        table[from + table[count] as usize * width..from + limit * width].iter().all(|&n| n == 0)
    };
    table[14..16].iter().all(|&number| number == 0) && LISTS.iter().all(rest)
}

/// Empty as 0, 0; or within the bytes lent, trimmed, allowed, without `##` right after a line feed.
fn text_is_sound(table: &[i32], which: usize, texts: &[u8]) -> bool {
    let start = i64::from(table[TEXTS_FROM + 2 * which]);
    let length = i64::from(table[TEXTS_FROM + 2 * which + 1]);
    if length == 0 {
        return start == 0;
    }
    if start < 0 || length < 0 || start + length > texts.len() as i64 {
        return false;
    }
    let text = &texts[start as usize..(start + length) as usize];
    let cut = |byte: u8| is_blank(byte) || byte == b'\n';
    !cut(text[0])
        && !cut(text[text.len() - 1])
        && text.iter().all(|&byte| is_allowed(byte))
        && !text.windows(3).any(|three| three == b"\n##")
}

/// The structure that a sound table holds.
pub fn taken_out(table: &[i32]) -> Structure {
    let atom = |row: &[i32]| Atom { element: row[0], mass: row[1], hydrogens: row[2] };
    let bond = |row: &[i32]| Bond { lower: row[0], higher: row[1], kind: row[2] };
    let centre = |row: &[i32]| Centre { atom: row[0], descriptor: row[1], group: row[2] };
    let pair = |row: &[i32]| Pair { lower: row[0], higher: row[1], descriptor: row[2], group: row[3] };
    let text = |which: usize| (table[7 + 2 * which] as usize, table[8 + 2 * which] as usize);
    Structure {
        block_id: table[6],
        texts: [text(0), text(1), text(2)],
        atoms: used(table, 0).map(atom).collect(),
        bonds: used(table, 1).map(bond).collect(),
        charges: spreads(table, 2, 3),
        radicals: spreads(table, 3, 4),
        centres: used(table, 4).map(centre).collect(),
        pairs: used(table, 5).map(pair).collect(),
        helical: table[HELICAL_AT] == 1,
        ..Structure::default()
    }
}

/// The rows of a list of charges or radicals, each with its atoms ascending.
fn spreads(table: &[i32], list: usize, column: usize) -> Vec<Spread> {
    let members = |row: i32| {
        let numbered = used(table, 0).zip(1..);
        numbered.filter(|(atom, _)| atom[column] == row).map(|(_, number)| number).collect()
    };
    let rows = used(table, list).zip(1..);
    rows.map(|(value, row)| Spread { value: value[0], atoms: members(row) }).collect()
}

/// The one written form, of any length.
pub fn form(structure: &Structure, texts: &[u8]) -> Vec<u8> {
    let text = |which: usize| {
        let (start, length) = structure.texts[which];
        &texts[start..start + length]
    };
    let mut form = Vec::new();
    write_value(&mut form, "TITLE", text(0));
    write_value(&mut form, "JCAMP-CS", b"3.7");
    write_value(&mut form, "ORIGIN", text(1));
    write_value(&mut form, "OWNER", text(2));
    if structure.block_id != 0 {
        write_value(&mut form, "BLOCK_ID", structure.block_id.to_string().as_bytes());
    }
    write_value(&mut form, "MOLFORM", formula(structure).as_bytes());
    write_lists(&mut form, structure);
    if structure.helical {
        // "written as a record after STEREOPAIR with the value on the label line"
        write_value(&mut form, "STEREOMOLECULE", b"YES");
    }
    form.extend(b"##END=\n");
    form
}

/// "`=` then a space and the value; no space where there is none."
fn write_value(form: &mut Vec<u8>, label: &str, value: &[u8]) {
    form.extend(format!("##{label}=").bytes());
    if !value.is_empty() {
        form.push(b' ');
        form.extend(value);
    }
    form.push(b'\n');
}

fn write_lists(form: &mut Vec<u8>, structure: &Structure) {
    let numbered = structure.atoms.iter().zip(1..);
    let atoms = numbered.map(|(atom, number)| {
        let hydrogens = if atom.hydrogens == 0 { String::new() } else { format!(" {}", atom.hydrogens) };
        format!("{number} {}{hydrogens}", written(atom.element, atom.mass))
    });
    let bond = |bond: &Bond| format!("{} {} {}", bond.lower, bond.higher, kept("SDTQA", bond.kind - 1));
    let charge = |row: &Spread| format!("{:+}{}", row.value, members(row));
    let radical = |row: &Spread| format!("{}{}", row.value, members(row));
    let centre = |centre: &Centre| {
        format!("{} {}{}", centre.atom, kept("PM", centre.descriptor - 1), group(centre.group))
    };
    let pair = |pair: &Pair| {
        let descriptor = kept("0PM", pair.descriptor);
        format!("{} {} {descriptor}{}", pair.lower, pair.higher, group(pair.group))
    };
    write_list(form, "ATOMLIST", atoms.collect());
    write_list(form, "BONDLIST", structure.bonds.iter().map(bond).collect());
    write_list(form, "CHARGE", structure.charges.iter().map(charge).collect());
    write_list(form, "RADICAL", structure.radicals.iter().map(radical).collect());
    write_list(form, "STEREOCENTER", structure.centres.iter().map(centre).collect());
    write_list(form, "STEREOPAIR", structure.pairs.iter().map(pair).collect());
}

/// A list below its label line; an empty one is left out.
fn write_list(form: &mut Vec<u8>, label: &str, rows: Vec<String>) {
    if !rows.is_empty() {
        form.extend(format!("##{label}=\n{}\n", rows.join("\n")).bytes());
    }
}

fn kept(letters: &str, index: i32) -> char {
    char::from(letters.as_bytes()[index as usize])
}

fn members(row: &Spread) -> String {
    row.atoms.iter().map(|atom| format!(" {atom}")).collect()
}

/// "Group 0 left out."
fn group(byte: i32) -> String {
    if byte == 0 {
        return String::new();
    }
    format!(" {}", char::from(byte as u8))
}

/// L1: "one fragment for each group of atoms ..., in order of their lowest atom, parted by ` * `".
pub fn formula(structure: &Structure) -> String {
    let fragment_of = |group: &Vec<usize>| {
        let atoms: Vec<Atom> = group.iter().map(|&atom| structure.atoms[atom - 1]).collect();
        fragment(&atoms)
    };
    groups(structure).iter().map(fragment_of).collect::<Vec<String>>().join(" * ")
}

/// "C, H, then by symbol ...; no mass before ascending masses; counts of 1 left out." An atom's implied
/// hydrogens are in its fragment.
pub fn fragment(atoms: &[Atom]) -> String {
    let mut totals: Vec<((i32, i32), i64)> = listed(atoms).into_iter().collect();
    totals.sort_by_key(|&((element, mass), _)| (written_order(element), mass));
    let entry = |&((element, mass), count): &((i32, i32), i64)| match count {
        1 => written(element, mass),
        _ => format!("{}{count}", written(element, mass)),
    };
    totals.iter().map(entry).collect::<Vec<String>>().join(" ")
}
