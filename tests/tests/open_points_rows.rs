//! Open points E, F and M: numbers, rows and formulas, by hand. `n@p` is refusal n at place p.

use galebonnet_tests::generate::crowded::{each_atom, two_ends, Crowded};
use galebonnet_tests::generate::neon::{replaced, NEON};
use galebonnet_tests::independent::read_table;

fn answer(block: &[u8]) -> String {
    let answer = read_table(block, &mut vec![7; 3856]);
    format!("{}@{}", answer.number, answer.place)
}

/// The refusal number and the line it is placed on.
fn answer_line(block: &[u8]) -> (u32, String) {
    let answer = read_table(block, &mut vec![7; 3856]);
    let rest = block[answer.place..].split(|&byte| byte == b'\n').next().unwrap_or(&[]);
    (answer.number, String::from_utf8_lossy(rest).into_owned())
}

/// Neon's answer with its atom row, which starts at 76, replaced.
fn atom(row: &str) -> String {
    answer(&replaced(76, row.as_bytes()).expect("the atom row"))
}

/// Neon's answer with a list before END; its label line starts at 81.
fn list(list: &str) -> String {
    answer(NEON.replace("##END", &format!("##{list}\n##END")).as_bytes())
}

/// The answer for a formula and the atom rows that stand with it.
fn molecule(formula: &str, rows: &str) -> String {
    answer(NEON.replace("= Ne", &format!("= {formula}")).replace("1 Ne", rows).as_bytes())
}

/// The refusal number of a formula of which no atom is listed; 15 (at END) if its line is sound.
fn formula(formula: &str) -> u32 {
    let block = NEON.replace("= Ne", &format!("= {formula}"));
    let answer = read_table(block.as_bytes(), &mut vec![7; 3856]);
    let expected = if answer.number == 15 { block.len() - 7 } else { 50 };
    assert_eq!(answer.place, expected, "place of formula {formula}");
    answer.number
}

/// CHARGE rows below neon's one atom (E1 to E4, E9); the first one stands at 91.
const CHARGES: [(&str, &str); 26] = [
    ("+000001", "0@0"),
    ("+0000001", "9@91"),
    ("+", "9@91"),
    ("+ 1", "9@91"),
    ("--1", "9@91"),
    ("1", "0@0"),
    ("+0", "10@91"),
    ("-0", "10@91"),
    ("0", "10@91"),
    ("-100", "10@91"),
    ("-000099", "0@0"),
    ("99", "0@0"),
    ("+1 +1", "9@91"),
    ("+1 1 1 x", "9@91"),
    ("0 9", "10@91"),
    ("+1 1 1 9", "11@91"),
    ("+1 1 1", "13@91"),
    ("+1 0", "11@91"),
    ("+1 257", "11@91"),
    ("+1 999999", "11@91"),
    ("+1 1000000", "9@91"),
    ("1.0", "9@91"),
    ("+1\n+2", "13@94"),
    ("+1\n+2 1", "0@0"),
    ("+1 1\n+2 1", "13@96"),
    ("+-1", "9@91"),
];

/// First atom rows (E3 to E6), which stand at 76.
const FIRST_ATOMS: [(&str, &str); 27] = [
    ("0 Ne", "11@76"),
    ("257 Ne", "11@76"),
    ("999999 Ne", "11@76"),
    ("2 ^301Xx 16", "10@76"),
    ("2 Xx 99", "10@76"),
    ("2 Xx", "11@76"),
    ("1 Xx", "12@76"),
    ("x Xx 99", "9@76"),
    ("1 ^0D", "10@76"),
    ("1 ^2D", "12@76"),
    ("2 ^2D", "11@76"),
    ("1 NE", "9@76"),
    ("1 Uuq", "9@76"),
    ("1 Uq", "12@76"),
    ("1 Rf", "12@76"),
    ("1 Lw", "12@76"),
    ("1 A", "12@76"),
    ("1 J", "12@76"),
    ("1 Ne 16", "10@76"),
    ("1 Ne -1", "9@76"),
    ("1 Ne 1 1", "9@76"),
    ("1", "9@76"),
    ("1 ^0001C", "9@76"),
    ("1 ^000C", "10@76"),
    ("1 ^301C", "10@76"),
    ("1 ^C", "9@76"),
    ("1 C^13", "9@76"),
];

#[test]
fn e1_e2_digits_and_signs() {
    let atoms = [("0000001 Ne", "9@76"), ("000001 Ne", "0@0"), ("+1 Ne", "9@76")];
    for (row, expected) in atoms {
        assert_eq!(atom(row), expected, "{row}");
    }
    for (row, expected) in CHARGES {
        assert_eq!(list(&format!("CHARGE=\n{row}")), expected, "{row}");
    }
    let radicals =
        [("+1", "9@92"), ("15", "0@0"), ("16", "10@92"), ("0", "10@92"), ("-1", "9@92"), ("1 1", "0@0")];
    for (row, expected) in radicals {
        assert_eq!(list(&format!("RADICAL=\n{row}")), expected, "{row}");
    }
}

#[test]
fn e3_e4_the_lowest_number_of_a_row() {
    for (row, expected) in FIRST_ATOMS {
        assert_eq!(atom(row), expected, "{row}");
    }
    for (row, expected) in [("9 9 X", "9@93"), ("9 9 S", "11@93"), ("1 1 S", "13@93"), ("1 1", "9@93")] {
        assert_eq!(list(&format!("BONDLIST=\n{row}")), expected, "{row}");
    }
    for (row, number) in [("257 H 16", 10), ("256 H", 11), ("257 Xx", 12), ("257 H", 14), ("257 h", 9)] {
        let full = String::from_utf8(Crowded::with_atoms(256).block()).expect("ASCII");
        let block = full.replace("256 H\n", &format!("256 H\n{row}\n"));
        assert_eq!(answer_line(block.as_bytes()), (number, row.to_string()));
    }
}

#[test]
fn e4_e7_e9_full_lists() {
    let mut block = Crowded::with_atoms(65);
    block.charges = each_atom(64, |atom| format!("+1 {atom}"));
    assert_eq!(answer_line(&block.block()).0, 0);
    for (row, number) in [("-1 65", 14), ("-1 64", 13), ("-1", 14), ("-1 66", 11), ("0 65", 10), ("-1 x", 9)]
    {
        let mut over = block.clone();
        over.charges.push(row.to_string());
        assert_eq!(answer_line(&over.block()), (number, row.to_string()));
    }
    block.charges[5] = "+9".to_string();
    assert_eq!(answer_line(&block.block()).0, 0, "63 rows with atoms, one without");
    block.charges.push("+8".to_string());
    assert_eq!(answer_line(&block.block()), (13, "+8".to_string()));

    let mut block = Crowded::with_atoms(33);
    block.bonds = two_ends(33, 512, "S");
    for (row, number) in [("2 1 S", 0), ("1 2 D", 13), ("32 33 S", 14), ("34 33 S", 11), ("5 5 S", 13)] {
        let mut over = block.clone();
        over.bonds.push(row.to_string());
        assert_eq!(answer_line(&over.block()).0, number, "{row}");
    }
    let mut block = Crowded::with_atoms(129);
    block.centres = each_atom(128, |atom| format!("{atom} P"));
    for (row, number) in [("", 0), ("128 P", 13), ("129 P", 14), ("130 P", 11), ("129 0", 9)] {
        let mut over = block.clone();
        over.centres.push(row.to_string());
        assert_eq!(answer_line(&over.block()).0, number, "{row}");
    }
    let mut block = Crowded::with_atoms(17);
    block.pairs = two_ends(17, 128, "0");
    for (row, number) in [("", 0), ("2 1 P", 13), ("16 17 P", 14), ("18 1 P", 11), ("1 1 P", 13)] {
        let mut over = block.clone();
        over.pairs.push(row.to_string());
        assert_eq!(answer_line(&over.block()).0, number, "{row}");
    }
}

#[test]
fn e5_to_e10_sound_rows_and_clashes() {
    assert_eq!(molecule("^1H", "1 ^001H"), "0@0");
    assert_eq!(molecule("^1U", "1 ^1U"), "0@0");
    assert_eq!(molecule("H15 Ne", "1 Ne 000015"), "0@0");
    assert_eq!(molecule("H2", "1 H 1"), "0@0");
    assert_eq!(molecule("D H", "1 D 1"), "0@0");
    assert_eq!(molecule("D2", "1 D 1"), "15@82");
    let two = |list: &str| molecule("Ne2", &format!("1 Ne\n2 Ne\n##{list}"));
    assert_eq!(two("BONDLIST=\n2 1 S\n1 2 S"), "0@0");
    assert_eq!(two("BONDLIST=\n1 2 S\n2 1 D"), "13@105");
    assert_eq!(two("STEREOPAIR=\n1 2 P\n1 2 P"), "13@107");
    assert_eq!(two("STEREOPAIR=\n1 2 P\n2 1 M"), "13@107");
    assert_eq!(two("STEREOCENTER=\n1 P\n1 P"), "13@107");
    assert_eq!(two("CHARGE=\n+1 1\n##RADICAL=\n1 1"), "0@0");
    for (value, expected) in [
        ("0", "10@50"),
        ("000000", "10@50"),
        ("1000000", "9@50"),
        ("5 6", "9@50"),
        ("1E2", "9@50"),
        ("999999", "0@0"),
    ] {
        let block = replaced(50, format!("##BLOCK_ID= {value}\n##MOLFORM= Ne").as_bytes());
        assert_eq!(answer(&block.expect("the MOLFORM line")), expected, "{value}");
    }
}

#[test]
fn section_f_formulas() {
    let wrong =
        "C 2;C /2;C/ 2;C//2;C/;^13 C;2C;(CH2)3;C2+;C.H;Cll;c;CO;CCl4;HO;C2^13C;Cl^37Cl;^17OH;C1000000;\
                 C0000001;^1234C;DO;* C;C *;C * * O;*;;$$ x;Xx CO;^C;C^;C2/;C/2/3";
    for value in wrong.split(';') {
        assert_eq!(formula(value), 9, "{value}");
    }
    for value in "C0;C10000;C999999;^000C;^0D;^301T;Xx C0;C0 Xx;C/0;^301C;C C0".split(';') {
        assert_eq!(formula(value), 10, "{value}");
    }
    for value in "Cn;Hx;^2D;^1D;^3T;Xx;J;Ne Xx".split(';') {
        assert_eq!(formula(value), 12, "{value}");
    }
    let right =
        "Co;C Cl4;ClC;NaCl;C2H4O2;C/2H/4;Ho;C2 ^13C;C2*^13C;^13C;^13C1O;C000001;D2O;D2 O;C C;C*C;O/2 C H2;\
                 C9999;\tC\r;C$$ x;Ne He";
    for value in right.split(';') {
        assert_eq!(formula(value), 15, "{value}");
    }
    assert_eq!(molecule("^2H D", "1 D\n2 ^2H"), "0@0");
    assert_eq!(molecule("D/2", "1 D\n2 ^2H"), "0@0");
    assert_eq!(molecule("O/2 C H2", "1 C 1\n2 O\n3 O 1"), "0@0");
    assert_eq!(molecule("C * C", "1 C\n2 C"), "0@0");
    let no_space = NEON.replace("= Ne", "=^13C").replace("1 Ne", "1 ^13C");
    assert_eq!(answer(no_space.as_bytes()), "0@0", "F3");
}

#[test]
fn section_m_traps() {
    assert_eq!(list(&format!("CHARGE=\n+1{}", " 1".repeat(10_000))), "13@91", "M2");
    assert_eq!(list(&format!("CHARGE=\n+1{} x", " 1".repeat(10_000))), "9@91", "M2");
    assert_eq!(list("DATE=\n2 Ne"), "0@0", "M4");
    assert_eq!(list("BLOCK_ID= 1\n2 Ne"), "9@95", "M4");
    assert_eq!(molecule("Ne He", "1 Ne"), "15@84", "M11");
    assert_eq!(molecule("Ne", "1 Ne 1"), "15@83", "M11");
    assert_eq!(molecule("Ne", "1 Ne\n2 He"), "15@86", "M11");
    assert_eq!(list("TITLE= b"), "6@81", "M16");
    assert_eq!(list("BONDLIST= 1 1 S"), "13@81", "M8");
    assert_eq!(list("CHARGE= +1 1"), "0@0", "D2");
    let at_limit = [NEON.as_bytes(), &vec![b' '; 32_768 - 88]].concat();
    assert_eq!(answer(&at_limit), "0@0", "M21");
    assert_eq!(answer(&[&at_limit[..], b" "].concat()), "2@0", "M21");
}
