//! Neon's neighbours: the examples of the open points as named blocks (see `limits`).

use super::neon;

/// Neon with the line at a place replaced by each of some texts.
const REPLACED: [(usize, &[&str]); 8] = [
    (
        0,
        &[
            "##TITLE",
            "##TITLE=",
            "## t-I/t_l E = a",
            "##\tTITLE= a",
            "##TITLE= a=b",
            "##TITLE= a\n## remark",
            "##TITLE= a\n ## remark",
            "##TITLE=\n\n  a\n b ",
            "##TITLE= a $$ kept\n$$ kept too",
            "\n##TITLE= a",
            " ##TITLE= a",
            "##TITLE= \u{e9}",
            "\u{feff}##TITLE= a",
            "##TIT\u{e9}LE= a",
            "##TITLE= ##x",
            "##TITLE= a\n##DATE= x\n##DATE= y",
            "##TITLE= a\n##JCAMP-DX= 4.24",
            "##TITLE= a\n##TITLE= a",
            "##TITLE= a\n##BLOCK_ID= 1",
            "##TITLE= a\n##MOLFORM= Ne",
            "##TITLE= a\n##=x",
            "##TITLE= a\n##",
            "##TITLE= a\n##END",
            "##TITLE= a\n###END=",
            "##TITLE= a\u{7f}",
            "##TITLE\r= a",
            "##TITLE= a\n##END $$ a=b",
            "##TITLE= a\r\n\r\n",
            "##TITLE= a\n##TIME=\n\u{0}",
        ],
    ),
    (
        11,
        &[
            "##JCAMP-CS=",
            "##JCAMP-CS=3.7",
            "##JCAMP CS= 3.7",
            "##jcampcs=\t3.7 \r",
            "##JCAMP-CS= 3.70",
            "##JCAMP-CS= 03.7",
            "##JCAMP-CS= +3.7",
            "##JCAMP-CS= 3,7",
            "##JCAMP-CS= 3.7 x",
            "##JCAMP-CS= 3.7 3.7",
            "##JCAMP-CS= 3.7$$x",
            "##JCAMP-CS= 3.7 $x",
            "##JCAMP-CS= $$ 3.7",
            "##JCAMP-CS=\n3.7",
            "##JCAMP-CS= 3.7\n3.7",
            "##JCAMP-CS= 3.7\n\n$$ x\n \t\r",
            "##JCAMP-CS= 3.7\n##JCAMP-CS= 9",
            "##JCAMP-CS= 3.7\n##BLOCK_ID= 1",
            "##BLOCK_ID= 1",
            "##JCAMP-CS= 4\n\u{0}",
            "##JCAMP-CS 3.7",
        ],
    ),
    (
        27,
        &[
            "##ORIGIN=",
            "##ORIGIN= b ##OWNER= c",
            "##ORIGIN= b\n ##OWNER= c",
            "##DATE= x",
            "##ORIGIN= b\n##ORIGIN= b",
        ],
    ),
    (
        39,
        &[
            "##OWNER=",
            "##OWNER=\n\n\n",
            "##OWNER= c\u{e9}",
            "##OWNER= c\n ##END=",
            "##OWNER= c\n##BLOCK_ID= 0",
            "##OWNER= c\n##BLOCK_ID=\n5",
            "##OWNER= c\n##BLOCKID= 000000",
            "##OWNER= c\n##BLOCK_ID= 1\n2 Ne",
            "##OWNER= c\u{c}",
            "##OWNER= c\n$$ note",
        ],
    ),
    (
        50,
        &[
            "##MOLFORM=",
            "##MOLFORM= $$ x\nNe",
            "##MOLFORM= Ne\nNe",
            "##MOLFORM= Ne\n$$ x",
            "##MOLFORM=Ne$$x",
            "##MOLFORM= Ne\n##BONDLIST=\n1 1 S",
            "##MOLFORM= Ne\n##BONDLIST=",
            "##MOLFORM= Ne\n##CHARGE=\n+1",
        ],
    ),
    (
        64,
        &[
            "##ATOMLIST$$=",
            "##ATOMLIST= 1 Ne",
            "##ATOMLIST= 2 Ne",
            "##ATOMLIST= AN AS NH",
            "##ATOMLIST= $$ AN AS",
        ],
    ),
    (
        76,
        &[
            "2 Ne",
            "1 ne",
            "1 Xx",
            "1 NE",
            "1 Uuq",
            "1 Uq",
            "1\rNe",
            "1\tNe",
            "1\nNe",
            "1 Ne$$x",
            "1 Ne $ x",
            "1 Ne $$$",
            "x Xx 99",
            "2 ^301Xx 16",
            "2 Xx 99",
            "2 Xx",
            "1 ^0D",
            "1 ^2D",
            "2 ^2D",
            "1 ^0001Ne",
            "1 ^000Ne",
            "1 ^Ne",
            "+1 Ne",
            "0000001 Ne",
            "000001 Ne",
            "0 Ne",
            "257 Ne",
            "999999 Ne",
            "1 Ne 1",
            "1 Ne -1",
            "1 Ne 0 0",
            "1",
            "1 ^13",
            "",
            "1 Ne\n1 Ne",
            "1 Ne\n##DATE=\n2 Ne",
            "1 Ne\n##BONDLIST=\n9 9 X",
            "1 Ne\n##BONDLIST=\n9 9 S",
            "1 Ne\n##BONDLIST=\n1 1 S",
            "1 Ne\n##BONDLIST= AN1 AN2 BT",
            "1 Ne\n##BONDLIST=",
            "1 Ne\n##CHARGE=\n0 9",
            "1 Ne\n##CHARGE=\n+1 1 1 9",
            "1 Ne\n##CHARGE=\n+1 1 1 x",
            "1 Ne\n##CHARGE=\n+1 1 1",
            "1 Ne\n##CHARGE=\n+ 1",
            "1 Ne\n##CHARGE=\n--1",
            "1 Ne\n##CHARGE=\n+1 +1",
            "1 Ne\n##CHARGE=\n+1\n+2",
            "1 Ne\n##CHARGE=\n+1\n+2 1",
            "1 Ne\n##RADICAL=\n1 1\n##CHARGE=\n+1 1",
            "1 Ne\n##CHARGE=\n+1 1\n##RADICAL=\n1 1",
            "1 Ne\n##RADICAL=\n+1",
            "1 Ne\n##STEREOPAIR=\n##RADICAL=\n##STEREOCENTER=",
            "1 Ne\n##STEREOPAIR=\n##MOLFORM= Ne",
            "1 Ne\n##STEREOPAIR=\n##BLOCK_ID= 1",
            "1 Ne\n##STEREOCENTER=\n1 0",
            "1 Ne\n##STEREOCENTER=\n1 Q",
            "1 Ne\n##STEREOCENTER=\n1 P\n1 P",
            "1 Ne\n##STEREOPAIR=\n1 1 P",
            "1 Ne\n##STEREOPAIR=\n1 1 p",
            "1 Ne\n##CHARGE= +1 1",
            "1 Ne\n##CHARGE= +1 2",
            "1 Ne\n##XYZ=\n\u{1}",
        ],
    ),
    (
        81,
        &[
            "##END",
            "##END==",
            "##END= x",
            "##END= $$ bye",
            "##END\t=",
            "##END $$ done",
            "##END $$ a=b",
            " ##END=",
            "###END=",
            "##DATE=\n ##END=\n##END=",
            "##E-N/D_ =",
            "##END=\n##END=",
            "##END=\n##END= x",
            "##END=\n##title= x",
            "##END=\n##X",
            "##END=\n##X=",
            "##END=\n$$ x",
            "##END=\n \t\r",
            "##END=\nx",
            "##END=\n\u{0}",
            "##END=\n##CHARGE=",
        ],
    ),
];

/// Formulas by themselves, parted by `;`: the shapes of open points F.
const FORMULAS: &str =
    "Ne2;Ne0;Ne He;He;Ne*;*Ne;Ne * * Ne;*;Ne*Ne;Ne * Ne;C 2;C /2;C/ 2;C//2;C/;^13 C;2C;(CH2)3;C2+;\
    C.H;Cll;c;CO;Co;CCl4;C Cl4;ClC;NaCl;C2H4O2;C/2H/4;HO;Ho;Cn;Hx;C2^13C;Cl^37Cl;C2 ^13C;C2*^13C;\
    ^13C;^13C1O;^17OH;C0;C10000;C1000000;^1234C;D2O;D2 O;DO;^2D;^0D;^301T;^1D;Xx C0;Xx CO;C0 Xx;\
    C\tO\rH;^2H D";

/// Neon with a line replaced, removed, or something behind it.
pub fn neighbours() -> Vec<(String, Vec<u8>)> {
    let mut cases = vec![("neon".to_string(), neon::NEON.as_bytes().to_vec())];
    let mut push = |name: String, block: Option<Vec<u8>>| {
        cases.push((name.clone(), block.unwrap_or_else(|| panic!("no line of neon: {name}"))));
    };
    for (place, texts) in REPLACED {
        push(format!("neon without line {place}"), neon::removed(place));
        for text in texts {
            let name = format!("neon, line {place} `{}`", text.escape_debug());
            push(name, neon::replaced(place, text.as_bytes()));
        }
    }
    for formula in FORMULAS.split(';') {
        let name = format!("neon, formula `{}`", formula.escape_debug());
        push(name, neon::replaced(50, format!("##MOLFORM= {formula}").as_bytes()));
    }
    for after in ["x\n", "\n", " \t\r\n", " ", "$$ x\n", "##DATE= x\n", "##X\n", "##TITLE= a\n", "\u{7f}"] {
        push(format!("neon, then `{}`", after.escape_debug()), Some(neon::followed(after.as_bytes())));
    }
    cases
}

/// Blocks that are no neighbour of neon.
pub fn whole_blocks() -> Vec<(String, Vec<u8>)> {
    let neon = neon::NEON;
    let head = "##TITLE= a\n##JCAMP-CS= 3.7\n##ORIGIN= b\n##OWNER= c\n";
    let two = format!("{head}##MOLFORM= C2 H2 D\n##ATOMLIST=\n1 C 1\n2 C 1\n3 D\n");
    let mut cases: Vec<(String, String)> = vec![
        ("empty".into(), String::new()),
        ("a line feed".into(), "\n".into()),
        ("a TITLE line".into(), "##TITLE= a\n".into()),
        ("a TITLE line without line feed".into(), "##TITLE= a".into()),
        ("neon without its last line feed".into(), neon[..87].into()),
        ("neon with carriage returns for line feeds".into(), neon.replace('\n', "\r")),
        ("neon with both".into(), neon.replace('\n', "\r\n")),
        ("rows on label lines".into(), neon.replace("=\n1 Ne", "= 1 Ne")),
        ("no ATOMLIST but a charge".into(), format!("{head}##MOLFORM= Ne\n##CHARGE=\n+1\n##END=\n")),
        ("^2H beside D".into(), format!("{head}##MOLFORM= ^2H D\n##ATOMLIST=\n1 D\n2 ^2H\n##END=\n")),
    ];
    let rows = [
        "BONDLIST=\n1 2 S\n2 1 S",
        "BONDLIST=\n1 2 S\n2 1 D",
        "BONDLIST=\n3 1 S\n1 2 D\n1 3 S",
        "BONDLIST=\n1 2 X",
        "BONDLIST=\n1 2 s",
        "CHARGE=\n-1 2\n+1 1",
        "CHARGE=\n+1\n-1 3 2\n+2 1",
        "CHARGE=\n+1\n+2",
        "RADICAL=\n1 3\n2 2 1",
        "STEREOCENTER=\n2 P a\n1 M A",
        "STEREOCENTER=\n1 P 1",
        "STEREOCENTER=\n1 P AB",
        "STEREOCENTER=\n1 P 00",
        "STEREOPAIR=\n2 1 P\n3 1 M b\n3 2 0",
        "STEREOPAIR=\n1 2 P\n1 2 P",
        "STEREOPAIR=\n1 2 P\n2 1 M",
        "STEREOPAIR=\n1 2 p",
    ];
    for row in rows {
        cases.push((format!("three atoms, {}", row.escape_debug()), format!("{two}##{row}\n##END=\n")));
    }
    cases.into_iter().map(|(name, block)| (name, block.into_bytes())).collect()
}
