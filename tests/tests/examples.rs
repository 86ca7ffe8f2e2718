//! The worked examples of document 01: formic acid read and written, and the walk's four lines; and the
//! sample of request L2, a molecule in Angstrom.

use galebonnet_tests::generate::neon::{replaced, NEON};
use galebonnet_tests::independent::{
    pieces, position, read, read_table, walk, walk_lines, write, Position, Walked, Written,
};

const INPUT: &str = "##title= formic acid\n##JCAMP_CS= 3.7 $$ by hand\n##ORIGIN= bench 4\n\
    ##OWNER= public domain\n##MOLFORM= O/2 C H2\n##ATOMLIST=\n$$ AN AS NH\n1 C 1\n2 O\n3 O 1\n\
    ##BONDLIST=\n3 1 S\n1 2 D\n1 3 S\n##END=\n";
const WRITTEN: &str = "##TITLE= formic acid\n##JCAMP-CS= 3.7\n##ORIGIN= bench 4\n\
    ##OWNER= public domain\n##MOLFORM= C H2 O2\n##ATOMLIST=\n1 C 1\n2 O\n3 O 1\n\
    ##BONDLIST=\n1 2 D\n1 3 S\n##END=\n";

#[test]
fn formic_acid_is_read() {
    let mut table = vec![9; 3856];
    assert_eq!(read_table(INPUT.as_bytes(), &mut table).number, 0);
    let mut expected = vec![0; 3856];
    expected[..2].copy_from_slice(&[3, 2]);
    expected[7..13].copy_from_slice(&[9, 11, 58, 7, 75, 13]);
    expected[16..31].copy_from_slice(&[6, 0, 1, 0, 0, 8, 0, 0, 0, 0, 8, 0, 1, 0, 0]);
    expected[1296..1302].copy_from_slice(&[1, 2, 2, 1, 3, 1]);
    assert_eq!(table, expected);
    assert_eq!(&INPUT[58..65], "bench 4");
    assert_eq!(&INPUT[75..88], "public domain");
}

#[test]
fn formic_acid_is_written() {
    let mut table = vec![0; 3856];
    read_table(INPUT.as_bytes(), &mut table);
    let mut buffer = vec![b'?'; WRITTEN.len() + 3];
    let written = write(&table, INPUT.as_bytes(), &mut buffer);
    assert_eq!(written, Written { number: 0, count: WRITTEN.len() });
    assert_eq!(buffer, format!("{WRITTEN}???").into_bytes());
}

fn sample(name: &str) -> String {
    std::fs::read_to_string(format!("../samples/{name}")).expect("a sample")
}

/// The sample's rows are whole numbers of 0.0001 Angstrom: each bond is as long as such bonds are.
#[test]
fn ethanol_has_the_shape_of_ethanol() {
    let (mut table, mut positions) = (vec![0; 3856], vec![0.0; 1024]);
    assert_eq!(read(sample("ethanol.jcs").as_bytes(), &mut table, &mut positions).number, 0);
    assert_eq!(position(&positions, 1), Position::At(1.1879, -0.3829, 0.0));
    assert_eq!(position(&positions, 9), Position::At(-0.0227, 1.1812, -0.8852));
    assert_eq!(position(&positions, 10), Position::NotGiven);
    let at = |atom: i32| match position(&positions, atom as usize) {
        Position::At(x, y, z) => [x, y, z],
        Position::NotGiven => panic!("no position of atom {atom}"),
    };
    let element = |atom: i32| table[16 + 5 * (atom as usize - 1)];
    for bond in table[1296..1296 + 3 * 8].chunks_exact(3) {
        let apart =
            at(bond[0]).iter().zip(at(bond[1])).map(|(one, other)| (one - other).powi(2)).sum::<f64>();
        let mut ends = [element(bond[0]), element(bond[1])];
        ends.sort();
        let wanted = match ends {
            [6, 6] => 1.51,
            [6, 8] => 1.43,
            [1, 8] => 0.97,
            [1, 6] => 1.09,
            _ => panic!("no bond of ethanol: {bond:?}"),
        };
        assert!((apart.sqrt() - wanted).abs() < 0.02, "{bond:?} is {} Angstrom", apart.sqrt());
    }
}

#[test]
fn the_sample_is_formic_acid() {
    assert_eq!(sample("formic.jcs"), INPUT);
    assert_eq!(sample("formic.canon"), WRITTEN);
}

#[test]
fn the_walk_prints_four_lines() {
    let other = replaced(76, b"2 Ne").expect("the atom row");
    let file = [NEON.as_bytes(), b"junk\n", &other, b"##TITLE= a\n"].concat();
    let expected = "B 0 88 0 0 1 0\nS 88 93\nB 93 181 11 169 0 0\nB 181 192 16 192 0 0\n";
    assert_eq!(walk_lines(&file), expected);
    let answers = [
        Walked::Block { start: 0, end: 88 },
        Walked::Stray { start: 88, end: 93 },
        Walked::Block { start: 93, end: 181 },
        Walked::Block { start: 181, end: 192 },
    ];
    assert_eq!(pieces(&file), answers);
    assert_eq!(walk(&file, 192), Walked::Finished);
    assert_eq!(walk(&file, 193), Walked::Refused(32));
}
