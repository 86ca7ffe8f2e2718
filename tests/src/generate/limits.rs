//! Named fixed blocks: every list and every number at its limit and one over, and the examples of
//! the open points. No answers stand here; whoever runs the cases compares two readers.

use super::crowded::{each_atom, two_ends, Crowded};
use super::limits_coordinates::coordinate_limits;
use super::limits_helical::helical_limits;
use super::neighbours::{neighbours, whole_blocks};
use super::neon::NEON;

/// Every named case.
pub fn limit_blocks() -> Vec<(String, Vec<u8>)> {
    let mut cases = Vec::new();
    cases.extend(atom_limits());
    cases.extend(bond_limits());
    cases.extend(spread_limits());
    cases.extend(stereo_limits());
    cases.extend(length_limits());
    cases.extend(number_limits());
    cases.extend(neighbours());
    cases.extend(whole_blocks());
    cases.extend(coordinate_limits());
    cases.extend(helical_limits());
    cases
}

type Cases = Vec<(String, Vec<u8>)>;

/// 256 and 257 atoms, and what else may be wrong with the 257th row.
fn atom_limits() -> Cases {
    let mut cases = Cases::new();
    for atoms in [255, 256, 257] {
        cases.push((format!("{atoms} atoms"), Crowded::with_atoms(atoms).block()));
    }
    for row in ["257 H 16", "256 H", "257 Xx", "257 H", "257 ^2D", "258 Xx", "257 h", "$$ 257 H", ""] {
        let full = String::from_utf8(Crowded::with_atoms(256).block()).expect("ASCII");
        let block = full.replace("256 H\n", &format!("256 H\n{row}\n"));
        cases.push((format!("row `{row}` after 256 atoms"), block.into_bytes()));
    }
    cases
}

/// 512 and 513 bonds, and a further row that repeats one.
fn bond_limits() -> Cases {
    let full = |rows: usize| {
        let mut block = Crowded::with_atoms(33);
        block.bonds = two_ends(33, rows, "S");
        block
    };
    let mut cases = Cases::new();
    for rows in [511, 512, 513] {
        cases.push((format!("{rows} bonds"), full(rows).block()));
    }
    for row in ["1 2 S", "2 1 S", "1 2 D", "1 1 S", "32 33 S", "1 34 S", "1 2 X", "33 32 A"] {
        let mut block = full(512);
        block.bonds.push(row.to_string());
        cases.push((format!("bond `{row}` after 512 bonds"), block.block()));
    }
    cases
}

/// 64 and 65 charge and radical rows, with and without the row that has no atoms.
fn spread_limits() -> Cases {
    let mut cases = Cases::new();
    for rows in [63, 64, 65] {
        for last in ["", "+1", "+1\n+2", "+0", "+1 1", "+1 66", "+1 65 65"] {
            let mut block = Crowded::with_atoms(65);
            block.charges = each_atom(rows, |atom| format!("-1 {atom}"));
            block.charges.push(last.to_string());
            cases.push((format!("{rows} charge rows, then `{}`", last.escape_debug()), block.block()));
        }
        for last in ["", "1", "1\n2", "0", "1 1", "1 66", "1 65 65", "16"] {
            let mut block = Crowded::with_atoms(65);
            block.radicals = each_atom(rows, |atom| format!("15 {atom}"));
            block.radicals.insert(0, last.to_string());
            cases.push((format!("`{}`, then {rows} radical rows", last.escape_debug()), block.block()));
        }
    }
    let mut block = Crowded::with_atoms(256);
    block.charges = vec![format!("+1{}", (1..=256).rev().map(|atom| format!(" {atom}")).collect::<String>())];
    cases.push(("one charge over 256 atoms".to_string(), block.block()));
    block.charges = vec![format!("+1{}", " 1".repeat(10_000))];
    cases.push(("a charge row of 10,001 fields".to_string(), block.block()));
    cases
}

/// 128 and 129 centres and pairs.
fn stereo_limits() -> Cases {
    let mut cases = Cases::new();
    for rows in [127, 128, 129] {
        let mut block = Crowded::with_atoms(130);
        block.centres = each_atom(rows, |atom| format!("{atom} P"));
        cases.push((format!("{rows} centres"), block.block()));
        let mut block = Crowded::with_atoms(17);
        block.pairs = two_ends(17, rows, "0");
        cases.push((format!("{rows} pairs"), block.block()));
    }
    for row in ["1 P", "131 P", "130 Q", "130 P", "130 M a"] {
        let mut block = Crowded::with_atoms(130);
        block.centres = each_atom(128, |atom| format!("{atom} P"));
        block.centres.push(row.to_string());
        cases.push((format!("centre `{row}` after 128"), block.block()));
    }
    for row in ["2 1 P", "1 1 P", "1 18 P", "16 17 P", "16 17 X", "1 2 0"] {
        let mut block = Crowded::with_atoms(17);
        block.pairs = two_ends(17, 128, "P A");
        block.pairs.push(row.to_string());
        cases.push((format!("pair `{row}` after 128"), block.block()));
    }
    cases
}

/// 32,768 and 32,769 bytes, by a long title, by blanks after END, by a bad byte.
fn length_limits() -> Cases {
    let mut cases = Cases::new();
    for length in [32_767, 32_768, 32_769] {
        let title = "a".repeat(length - NEON.len() + 1);
        let block = NEON.replacen("##TITLE= a", &format!("##TITLE= {title}"), 1);
        cases.push((format!("{length} bytes by the title"), block.into_bytes()));
        let blanks = " ".repeat(length - NEON.len());
        cases.push((format!("{length} bytes by blanks after END"), format!("{NEON}{blanks}").into_bytes()));
        cases.push((format!("{length} bytes of 0"), vec![0; length]));
    }
    let title = "a".repeat(32_682);
    let compact = NEON.replacen("##TITLE= a", &format!("##TITLE={title}"), 1);
    cases.push(("32,768 bytes whose written form is longer".to_string(), compact.into_bytes()));
    cases
}

/// Numbers at their limits: charges, radicals, hydrogens, masses, counts, block ids, digits.
fn number_limits() -> Cases {
    let mut cases = Cases::new();
    let mut neon_with = |name: String, from: &str, to: String| {
        cases.push((name, NEON.replacen(from, &to, 1).into_bytes()));
    };
    for value in
        ["99", "100", "0", "-99", "-100", "+1", "-0", "000099", "0000099", "+000099", "-0000001", "+"]
    {
        neon_with(format!("charge {value}"), "##END=", format!("##CHARGE=\n{value} 1\n##END="));
    }
    for value in ["1", "15", "16", "0", "000015", "0000015", "+1", "-1", "999999"] {
        neon_with(format!("radical {value}"), "##END=", format!("##RADICAL=\n{value}\n##END="));
    }
    for value in ["1", "999999", "0", "1000000", "000001", "0000001", "", "5 6", "1E2", "-1"] {
        neon_with(format!("block id {value}"), "##MOLFORM", format!("##BLOCK_ID= {value}\n##MOLFORM"));
    }
    for value in ["0", "1", "15", "16", "000015", "0000015", "-1", "1 1"] {
        let rows = format!("Ne H{value}\n##ATOMLIST=\n1 Ne {value}");
        neon_with(format!("hydrogens {value}"), "Ne\n##ATOMLIST=\n1 Ne", rows);
        let rows = format!("Ne H15\n##ATOMLIST=\n1 Ne {value}");
        neon_with(format!("hydrogens {value} beside H15"), "Ne\n##ATOMLIST=\n1 Ne", rows);
    }
    for value in ["1", "300", "301", "0", "000", "001", "0001", "999", ""] {
        neon_with(format!("mass {value} in the formula"), "= Ne", format!("= ^{value}Ne"));
        neon_with(format!("mass {value} in a row"), "1 Ne", format!("1 ^{value}Ne"));
        let rows = format!("^{value}Ne\n##ATOMLIST=\n1 ^{value}Ne");
        neon_with(format!("mass {value} in both"), "Ne\n##ATOMLIST=\n1 Ne", rows);
    }
    for value in ["1", "9999", "10000", "0", "999999", "1000000", "000001", "0000001", "/1", "/0", "//1", "/"]
    {
        neon_with(format!("count {value}"), "= Ne", format!("= Ne{value}"));
    }
    for group in ["0", "A", "Z", "a", "z", "1", "00", "AA", "@", "[", "`", "{", "/", "~"] {
        neon_with(format!("group {group}"), "##END=", format!("##STEREOCENTER=\n1 P {group}\n##END="));
    }
    cases
}
