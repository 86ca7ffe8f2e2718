//! The input of the program `cases`: every named block, the cases of document 01 that are not among
//! them, and some tables too short. A case is a head of 8 bytes, `T` (a whole table is lent) or `S`
//! (one of 3,855 numbers), the block's length in six digits and a line feed; then the block.
//!
//! What document 01 says of the walk and of the writer is no block's case: a stray run with an END
//! line stands in samples/stray.jcs; 21 to 23, 31 and 32 are compared over the C door.

use super::crowded::{each_atom, two_ends, Crowded};
use super::limits::limit_blocks;
use super::neon::NEON;

/// A block under its name, and whether the lent table is too short.
pub struct Case {
    pub name: String,
    pub short: bool,
    pub block: Vec<u8>,
}

/// Every case, in the order of the stored files.
pub fn cases() -> Vec<Case> {
    let whole = |(name, block)| Case { name, short: false, block };
    let mut cases: Vec<Case> = limit_blocks().into_iter().map(whole).collect();
    cases.extend(looking_right().into_iter().map(|(name, block)| whole((name.to_string(), block))));
    cases.extend(short_tables());
    cases
}

/// Neon with its formula and its row replaced.
fn neon_with(formula: &str, rows: &str) -> Vec<u8> {
    NEON.replace("= Ne", &format!("= {formula}")).replace("1 Ne", rows).into_bytes()
}

/// "Formula `CO`: 9; `C O` passes", and "Readings that look right", each by a block that a reader
/// with the wrong reading answers otherwise; a merged group shows in the table alone.
fn looking_right() -> Vec<(&'static str, Vec<u8>)> {
    let dimer = "1 C 1\n2 O\n3 O 1\n4 C 1\n5 O\n6 O 1\n##BONDLIST=\n1 2 D\n1 3 S\n4 5 D\n4 6 S\n3 5 A\n2 6 A";
    let mut spread = Crowded::with_atoms(65);
    spread.charges = each_atom(63, |atom| format!("-1 {atom}"));
    spread.charges.push("+1 64 65".to_string());
    let mut repeated = Crowded::with_atoms(33);
    repeated.bonds = two_ends(33, 512, "S");
    repeated.bonds.extend(vec!["33 16 S".to_string(); 600]);
    repeated.bonds.extend(two_ends(33, 512, "S"));
    vec![
        ("formula CO over C and O", neon_with("CO", "1 C\n2 O")),
        ("formula C O over C and O", neon_with("C O", "1 C\n2 O")),
        ("`+1 3 5` is one charge", neon_with("C5", "1 C\n2 C\n3 C\n4 C\n5 C\n##CHARGE=\n+1 3 5")),
        ("`+1 3 5` then 5 again", neon_with("C5", "1 C\n2 C\n3 C\n4 C\n5 C\n##CHARGE=\n+1 3 5\n+1 5")),
        ("64 charges, the last over two atoms", spread.block()),
        ("a hydrogen-bonded dimer in two fragments", neon_with("C H2 O2*C H2 O2", dimer)),
        ("a hydrogen-bonded dimer in one fragment", neon_with("C2 H4 O4", dimer)),
        ("repeated bonds beyond 512 rows", repeated.block()),
        ("groups A and a", neon_with("C2", "1 C\n2 C\n##STEREOCENTER=\n1 P A\n2 M a")),
        ("END in a text's line", NEON.replace("= c", "= c\n ##END=").into_bytes()),
    ]
}

/// 1 comes before every other refusal.
fn short_tables() -> Vec<Case> {
    let blocks: [(&str, Vec<u8>); 4] = [
        ("neon", NEON.into()),
        ("nothing", Vec::new()),
        ("a byte not allowed", b"\0".to_vec()),
        ("32,769 bytes", vec![b' '; 32_769]),
    ];
    let short = |(name, block)| Case { name: format!("{name} into a short table"), short: true, block };
    blocks.into_iter().map(short).collect()
}

/// The bytes of the program's standard input.
pub fn case_input() -> Vec<u8> {
    let mut input = Vec::new();
    for case in cases() {
        let lent = if case.short { 'S' } else { 'T' };
        input.extend(format!("{lent}{:06}\n", case.block.len()).bytes());
        input.extend(case.block);
    }
    input
}
