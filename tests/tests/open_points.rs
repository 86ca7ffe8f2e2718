//! Open points A to D: every example with an answer, by hand. `n@p` is refusal n at place p.

use galebonnet_tests::generate::neon::{followed, removed, replaced, NEON};
use galebonnet_tests::independent::lines::lines;
use galebonnet_tests::independent::read_table;

fn answer(block: &[u8]) -> String {
    let answer = read_table(block, &mut vec![7; 3856]);
    format!("{}@{}", answer.number, answer.place)
}

fn expect(cases: &[(&str, Vec<u8>, &str)]) {
    for (name, block, expected) in cases {
        assert_eq!(answer(block), *expected, "{name}: {}", block.escape_ascii());
    }
}

/// Neon with the line at a place replaced.
fn neon(place: usize, text: &[u8]) -> Vec<u8> {
    replaced(place, text).expect("a line of neon starts there")
}

/// Two neon atoms, then a list; its label line starts at 87.
fn two(list: &str) -> Vec<u8> {
    let rows = NEON.replace("= Ne", "= Ne2").replace("1 Ne", "1 Ne\n2 Ne");
    rows.replace("##END=", &format!("##{list}\n##END=")).into_bytes()
}

#[test]
fn section_a_lines_and_bytes() {
    assert_eq!((lines(b"x\n", 0).count(), lines(b"x\n\n", 0).count(), lines(b"", 0).count()), (1, 2, 0));
    expect(&[
        ("A1", NEON.as_bytes()[..87].to_vec(), "0@0"),
        ("A2 one line", NEON.replace('\n', "\r").into_bytes(), "16@88"),
        ("A2 two fields", neon(76, b"1\rNe"), "0@0"),
        ("A2 both", NEON.replace('\n', "\r\n").into_bytes(), "0@0"),
        ("A3 owner", neon(39, b"##OWNER= c\xe9"), "3@39"),
        ("A3 127", neon(39, b"##OWNER= c\x7f"), "3@39"),
        ("A3 12", neon(39, b"##OWNER= c\x0c"), "3@39"),
        ("A3 11", neon(39, b"##OWNER= c\x0b"), "3@39"),
        ("A3 0", neon(39, b"##OWNER= \0c"), "3@39"),
        ("A3 comment", neon(11, b"##JCAMP-CS= 3.7 $$ \x80"), "3@11"),
        ("A3 skipped", neon(64, b"##DATE=\n\x01\n##ATOMLIST="), "3@72"),
        ("A3 after END", followed(b"\x00\n"), "3@88"),
        ("A3 byte order mark", [b"\xef\xbb\xbf", NEON.as_bytes()].concat(), "3@0"),
        ("A4", b"##TITLE= a\n##JCAMP-CS= 4\n\x00\n".to_vec(), "7@11"),
        ("A5 2 before 3", vec![0; 32_769], "2@0"),
        ("A5 judged by content", vec![0; 32_768], "3@0"),
        ("A6 blank", b"\n".to_vec(), "4@0"),
        ("A6 blank before", [b" \n", NEON.as_bytes()].concat(), "4@0"),
        ("A6 no =", neon(0, b"##TITLE"), "4@0"),
        ("A6 bad byte", b"\xffx\n".to_vec(), "3@0"),
        ("A7 in a list", neon(81, b" ##END="), "9@81"),
        ("A7 in a text", neon(39, b"##OWNER= c\n ##END="), "0@0"),
        ("A7 skipped", neon(81, b"##DATE=\n ##END=\n##END="), "0@0"),
    ]);
    let mut short = vec![3; 3855];
    assert_eq!(read_table(&[0; 32_769], &mut short).number, 1);
    assert!(short.iter().all(|&number| number == 3), "A5: a short table stays untouched");
}

#[test]
fn section_b_labels() {
    expect(&[
        ("B1 = in a title", neon(0, b"##TITLE= a=b"), "0@0"),
        ("B1 END's value", neon(81, b"##END=="), "9@81"),
        ("B1 empty label", neon(64, b"##=x\n##ATOMLIST="), "0@0"),
        ("B1 ## alone", neon(64, b"##\n##ATOMLIST="), "5@64"),
        ("B1 no =", neon(81, b"##END"), "5@81"),
        ("B1 #END", neon(81, b"###END="), "16@89"),
        ("B2 tab", neon(81, b"##END\t="), "16@89"),
        ("B2 carriage return", neon(81, b"##END\r="), "16@89"),
        ("B2 title", neon(0, b"##\tTITLE= a"), "4@0"),
        ("B3 title", neon(0, b"## t-I/t_l E = a"), "0@0"),
        ("B3 space", neon(11, b"##JCAMP CS= 3.7"), "0@0"),
        ("B3 none", neon(11, b"##jcampcs= 3.7"), "0@0"),
        ("B3 block id", neon(50, b"##BLOCKID= 5\n##MOLFORM= Ne"), "0@0"),
        ("B4 no =", neon(81, b"##END $$ done"), "5@81"),
        ("B4 unknown", neon(81, b"##END $$ a=b"), "16@94"),
        ("B4 rows skipped", neon(64, b"##ATOMLIST$$="), "8@83"),
        ("B5", neon(0, b"##TITLE= a\n## remark"), "5@11"),
        ("B5 skipped", neon(11, b"##DATE=\n## remark\n##JCAMP-CS= 3.7"), "5@19"),
        ("B5 second column", neon(0, b"##TITLE= a\n ## remark"), "0@0"),
        ("B6", NEON.replace("b\n##OWNER", "b ##OWNER").into_bytes(), "8@81"),
        ("B8 bonds", neon(81, b"##BONDLIST=\n##END="), "0@0"),
        ("B8 charge", neon(81, b"##CHARGE=\n\n$$ none\n##END="), "0@0"),
        ("B8 radical", neon(81, b"##RADICAL=\n##STEREOCENTER=\n##STEREOPAIR=\n##END="), "0@0"),
        ("B8 title", neon(0, b"##TITLE="), "0@0"),
        ("B8 origin", neon(27, b"##ORIGIN="), "0@0"),
        ("B8 owner", neon(39, b"##OWNER=\n\n\n"), "0@0"),
    ]);
    let skipped = "DATE TIME STEREOMOLECULES STEREOMOLECUL MAX_RASTER XY_RASTER XYZ_SOURCE JCAMP-DX";
    for label in skipped.split(' ') {
        let line = format!("##TITLE= a\n##{label}= x\n1 2 q\n##{label}=");
        assert_eq!(answer(&neon(0, line.as_bytes())), "0@0", "B7: {label}");
    }
}

#[test]
fn section_c_order() {
    expect(&[
        ("C1", b"##TITLE= a\n##MOLFORM= Ne\n##JCAMP-CS= 3.7\n".to_vec(), "6@25"),
        ("C2", b"##TITLE= a\n##BLOCK_ID= 1\n##JCAMP-CS= 3.7\n".to_vec(), "6@25"),
        ("C2 never", neon(11, b"##BLOCK_ID= 1"), "8@79"),
        ("C2 before ORIGIN", neon(27, b"##BLOCK_ID= 1\n##ORIGIN= b"), "0@0"),
        ("C2 last", neon(81, b"##STEREOPAIR=\n##BLOCK_ID= 1\n##END="), "0@0"),
        ("C2 between", neon(81, b"##BONDLIST=\n##BLOCK_ID= 1\n##CHARGE=\n##END="), "0@0"),
        ("C3 charge", neon(81, b"##RADICAL=\n##CHARGE=\n##END="), "6@92"),
        ("C3 formula", neon(81, b"##STEREOPAIR=\n##MOLFORM= Ne\n##END="), "6@95"),
        ("C3 free 1", neon(81, b"##STEREOPAIR=\n##STEREOCENTER=\n##RADICAL=\n##END="), "0@0"),
        ("C3 free 2", neon(81, b"##STEREOCENTER=\n##RADICAL=\n##STEREOPAIR=\n##END="), "0@0"),
        ("C4 unknown", followed(b"##DATE= x\n"), "17@88"),
        ("C4 no =", followed(b"##X\n"), "5@88"),
        ("C5 version", neon(27, b"##JCAMP-CS= 9\n##ORIGIN= b"), "6@27"),
        ("C5 END", followed(b"##END=x\n"), "6@88"),
        ("C7 bond row", neon(64, b"##BONDLIST=\n1 1 S\n##ATOMLIST="), "11@76"),
        ("C7 no row", neon(64, b"##BONDLIST=\n##ATOMLIST="), "6@76"),
        ("C7 charge", neon(64, b"##CHARGE=\n+1\n##ATOMLIST="), "6@77"),
        ("C7 no atoms", NEON.replace("ATOMLIST=\n1 Ne", "CHARGE=\n+1").into_bytes(), "8@77"),
    ]);
    let known = "TITLE JCAMP-CS ORIGIN OWNER MOLFORM ATOMLIST BONDLIST CHARGE RADICAL STEREOCENTER \
                 STEREOPAIR STEREOMOLECULE MAX_XYZ XYZ_FACTOR XYZ BLOCK_ID END";
    for label in known.split_whitespace() {
        assert_eq!(answer(&followed(format!("##{label}=\n").as_bytes())), "6@88", "C4: {label}");
    }
}

#[test]
fn section_d_records_and_comments() {
    expect(&[
        ("D1 row", neon(76, b"1 Ne$$x"), "0@0"),
        ("D1 version", neon(11, b"##JCAMP-CS= 3.7$$x"), "0@0"),
        ("D1 three", neon(76, b"1 Ne $$$"), "0@0"),
        ("D1 one", neon(76, b"1 Ne $ x"), "9@76"),
        ("D1 one, version", neon(11, b"##JCAMP-CS= 3.7 $x"), "7@11"),
        ("D2 row", NEON.replace("=\n1 Ne", "= 1 Ne").into_bytes(), "0@0"),
        ("D2 fault", NEON.replace("=\n1 Ne", "= 2 Ne").into_bytes(), "11@64"),
        ("D2 heading", neon(81, b"##BONDLIST= AN1 AN2 BT\n##END="), "9@81"),
        ("D3 version", neon(11, b"##JCAMP-CS=\n3.7"), "7@11"),
        ("D3 formula", neon(50, b"##MOLFORM= $$ x\nNe"), "9@50"),
        ("D3 block id", neon(27, b"##BLOCK_ID=\n5\n##ORIGIN= b"), "9@27"),
        ("D3 blank lines", neon(11, b"##JCAMP-CS= 3.7\n\n$$ x\n \t\r"), "0@0"),
        ("D4 version", neon(11, b"##JCAMP-CS= 3.7\n3.7"), "9@27"),
        ("D4 formula", neon(50, b"##MOLFORM= Ne\nNe"), "9@64"),
        ("D5 no blank", neon(11, b"##JCAMP-CS=3.7"), "0@0"),
        ("D5 blanks", neon(11, b"##JCAMP-CS=\t3.7 \r"), "0@0"),
        ("D5 comment", neon(11, b"##JCAMP-CS= 3.7$$"), "0@0"),
        ("D6", neon(76, b"1\nNe"), "9@76"),
        ("D7", neon(81, b"##DATE=\n##END="), "0@0"),
        ("D8 kind", two("BONDLIST=\n1 2 X"), "9@99"),
        ("D8 small kind", two("BONDLIST=\n1 2 s"), "9@99"),
        ("D8 descriptor", two("STEREOCENTER=\n1 Q"), "9@103"),
        ("D8 group 1", two("STEREOCENTER=\n1 P 1"), "9@103"),
        ("D8 group AB", two("STEREOCENTER=\n1 P AB"), "9@103"),
        ("D8 group 00", two("STEREOCENTER=\n1 P 00"), "9@103"),
        ("D8 centre 0", two("STEREOCENTER=\n1 0"), "9@103"),
        ("D8 pair p", two("STEREOPAIR=\n1 2 p"), "9@101"),
        ("D8 pair 0", two("STEREOPAIR=\n1 2 0"), "0@0"),
    ]);
    for version in ["3.70", "03.7", "+3.7", "3,7", "3.7 x", "3.7 3.7", "", "3.7x", "3 .7", "$$ 3.7"] {
        let line = format!("##JCAMP-CS= {version}");
        assert_eq!(answer(&neon(11, line.as_bytes())), "7@11", "D5: {version}");
    }
}

#[test]
fn removed_records_are_missed_at_end() {
    for (place, expected) in [(11, "8@65"), (27, "8@69"), (39, "8@70"), (50, "8@67"), (76, "8@76")] {
        assert_eq!(answer(&removed(place).expect("a line of neon")), expected);
    }
    // Without its label line, the atom row is a further row of MOLFORM.
    assert_eq!(answer(&removed(64).expect("a line of neon")), "9@64");
}
