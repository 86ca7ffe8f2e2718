//! Open points G and H: what the table holds, and the END line, by hand.

use galebonnet_tests::generate::neon::{followed, replaced, NEON};
use galebonnet_tests::independent::read_table;

/// The table of an accepted block.
fn table(block: &str) -> Vec<i32> {
    let mut table = vec![-5; 3856];
    assert_eq!(read_table(block.as_bytes(), &mut table).number, 0, "{block}");
    table
}

fn answer(block: &[u8]) -> String {
    let answer = read_table(block, &mut vec![7; 3856]);
    format!("{}@{}", answer.number, answer.place)
}

/// Four carbon atoms and some lists.
fn four(lists: &str) -> String {
    let rows = NEON.replace("= Ne", "= C4").replace("1 Ne", "1 C\n2 C\n3 C\n4 C");
    rows.replace("##END", &format!("{lists}\n##END"))
}

#[test]
fn g3_rows_are_sorted_and_numbered_anew() {
    let sorted = table(&four("##CHARGE=\n-1 2\n+1 1"));
    assert_eq!(sorted[2832..2835], [1, -1, 0]);
    assert_eq!((sorted[16 + 3], sorted[21 + 3], sorted[26 + 3]), (1, 2, 0));
    let spread = table(&four("##CHARGE=\n+9\n+7 4 3\n-2 2\n##RADICAL=\n3\n2 4 1\n1 3"));
    assert_eq!(spread[..7], [4, 0, 3, 3, 0, 0, 0]);
    assert_eq!(spread[2832..2836], [-2, 7, 9, 0]);
    assert_eq!(spread[2896..2900], [2, 1, 3, 0]);
    let rows: Vec<(i32, i32)> = (0..4).map(|atom| (spread[19 + 5 * atom], spread[20 + 5 * atom])).collect();
    assert_eq!(rows, [(0, 1), (1, 0), (2, 2), (2, 1)]);
}

#[test]
fn g4_g5_pairs_centres_and_groups() {
    let made = table(&four(
        "##BONDLIST=\n4 3 A\n2 1 Q\n1 3 T\n3 1 T\n##STEREOPAIR=\n4 1 M z\n3 2 0\n2 1 P 0\n\
         ##STEREOCENTER=\n3 P\n1 M A\n2 P a",
    ));
    assert_eq!(made[..7], [4, 3, 0, 0, 3, 3, 0]);
    assert_eq!(made[1296..1308], [1, 2, 4, 1, 3, 3, 3, 4, 5, 0, 0, 0]);
    assert_eq!(made[2960..2972], [1, 2, 65, 2, 1, 97, 3, 1, 0, 0, 0, 0]);
    assert_eq!(made[3344..3360], [1, 2, 1, 0, 1, 4, 2, 122, 2, 3, 0, 0, 0, 0, 0, 0]);
}

#[test]
fn g6_g7_texts() {
    let block = NEON.replacen("##TITLE= a\n", "##TITLE=\n\n  a\n b \n", 1);
    let made = table(&block);
    assert_eq!(made[7..9], [12, 4]);
    assert_eq!(&block[12..16], "a\n b");
    let block = NEON.replacen("= a\n", "= a $$ kept\n$$ too\n##DATE= no\n", 1);
    let made = table(&block);
    let (start, length) = (made[7] as usize, made[8] as usize);
    assert_eq!(&block[start..start + length], "a $$ kept\n$$ too");
    let made = table(&NEON.replacen("##ORIGIN= b", "##ORIGIN= \t\r\n\n", 1));
    assert_eq!(made[9..11], [0, 0]);
    let made = table(&NEON.replacen("##OWNER= c", "##OWNER=c=d", 1));
    assert_eq!(made[11..13], [47, 3]);
}

#[test]
fn g1_every_element_is_known() {
    let symbols = "H He Li Be B C N O F Ne Na Mg Al Si P S Cl Ar K Ca Sc Ti V Cr Mn Fe Co Ni Cu Zn \
        Ga Ge As Se Br Kr Rb Sr Y Zr Nb Mo Tc Ru Rh Pd Ag Cd In Sn Sb Te I Xe Cs Ba La Ce Pr Nd Pm \
        Sm Eu Gd Tb Dy Ho Er Tm Yb Lu Hf Ta W Re Os Ir Pt Au Hg Tl Pb Bi Po At Rn Fr Ra Ac Th Pa U \
        Np Pu Am Cm Bk Cf Es Fm Md No Lr";
    let all: Vec<&str> = symbols.split_whitespace().collect();
    assert_eq!(all.len(), 103);
    for (symbol, number) in all.iter().zip(1..) {
        let made = table(&NEON.replace("Ne", symbol));
        assert_eq!(made[16..21], [number, 0, 0, 0, 0], "{symbol}");
    }
    assert_eq!(table(&NEON.replace("Ne", "D"))[16..18], [1, 2]);
    assert_eq!(table(&NEON.replace("Ne", "T"))[16..18], [1, 3]);
    assert_eq!(table(&NEON.replace("Ne", "^300Lr"))[16..18], [103, 300]);
    // Every other symbol of one or two letters is unknown.
    let mut known = 0;
    for upper in 'A'..='Z' {
        let letters = std::iter::once(String::new()).chain(('a'..='z').map(String::from));
        for symbol in letters.map(|lower| format!("{upper}{lower}")) {
            let answer = read_table(NEON.replace("1 Ne", &format!("1 {symbol}")).as_bytes(), &mut [0; 3856]);
            known += usize::from(answer.number != 12);
        }
    }
    assert_eq!(known, 105);
}

#[test]
fn g8_g9_m3_what_stays_and_what_is_zeroed() {
    for (block, number) in [(NEON.to_string(), 0), (NEON[..81].to_string(), 16), (format!("{NEON}x"), 17)] {
        let mut lent = vec![-9; 3900];
        assert_eq!(read_table(block.as_bytes(), &mut lent).number, number);
        assert_eq!(lent[3856..], [-9; 44]);
        let nonzero: Vec<(usize, i32)> =
            (0..3856).filter(|&place| lent[place] != 0).map(|place| (place, lent[place])).collect();
        let neon = vec![(0, 1), (7, 9), (8, 1), (9, 37), (10, 1), (11, 48), (12, 1), (16, 10)];
        assert_eq!(nonzero, if number == 0 { neon } else { vec![] });
    }
}

#[test]
fn section_h_the_end_line() {
    let neon = |place: usize, text: &str| replaced(place, text.as_bytes()).expect("a line of neon");
    let no_origin = NEON.replace("##ORIGIN= b\n", "");
    let cases = [
        ("H1 8 before 9", no_origin.replace("##END=", "##END= x").into_bytes(), "8@69"),
        ("H1 9 before 15", NEON.replace("##END=", "##END= x").replace("= Ne", "= He").into_bytes(), "9@81"),
        ("H1 value", neon(81, "##END= x"), "9@81"),
        ("H1 comment", neon(81, "##END= $$ bye"), "0@0"),
        ("H2", neon(76, "$$ no row"), "8@86"),
        ("H3", b"##TITLE= a\n".to_vec(), "16@11"),
        ("H3 no line feed", b"##TITLE= a".to_vec(), "16@10"),
        ("H4 unknown", followed(b"##DATE= x\n"), "17@88"),
        ("H4 comment", followed(b"$$ x\n"), "17@88"),
        ("H4 no =", followed(b"##X\n"), "5@88"),
        ("H4 title", followed(b"##title= x\n"), "6@88"),
        ("H4 later line", followed(b"\n \t\r\nx"), "17@93"),
        ("M19 blanks", followed(b" \t\r\n\n "), "0@0"),
        ("H6", b"##TITLE= a\n ##END=\n".to_vec(), "16@19"),
    ];
    for (name, block, expected) in cases {
        assert_eq!(answer(&block), expected, "{name}");
    }
}
