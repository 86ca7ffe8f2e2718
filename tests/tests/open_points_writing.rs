//! Open points I and J: soundness item by item, and the written form, by hand.

use galebonnet_tests::generate::neon::NEON;
use galebonnet_tests::independent::{read_table, write, Written};

/// The table of an accepted block.
fn table(block: &str) -> Vec<i32> {
    let mut table = vec![0; 3856];
    assert_eq!(read_table(block.as_bytes(), &mut table).number, 0, "{block}");
    table
}

/// Three carbons with every list, in the written form.
const FULL: &str = "##TITLE= a\n##JCAMP-CS= 3.7\n##ORIGIN= b\n##OWNER= c\n##BLOCK_ID= 7\n##MOLFORM= C3 H2\n\
    ##ATOMLIST=\n1 C\n2 C 2\n3 C\n##BONDLIST=\n1 2 S\n1 3 D\n2 3 A\n##CHARGE=\n+1 1 3\n-2 2\n+3\n\
    ##RADICAL=\n1 2\n2\n##STEREOCENTER=\n1 P\n3 M a\n##STEREOPAIR=\n1 2 0\n1 3 P A\n2 3 M\n##END=\n";

/// The writer's refusal number; a refused table leaves the buffer alone.
fn number(table: &[i32], texts: &[u8]) -> u32 {
    let mut buffer = vec![b'?'; 32_768];
    let written = write(table, texts, &mut buffer);
    let untouched = buffer[written.count..].iter().all(|&byte| byte == b'?');
    assert!(untouched && (written.count == 0) == (written.number != 0));
    written.number
}

/// The refusal number after some numbers of FULL's table are changed.
fn changed(changes: &[(usize, i32)]) -> u32 {
    let mut table = table(FULL);
    for &(place, value) in changes {
        table[place] = value;
    }
    number(&table, FULL.as_bytes())
}

fn form(block: &str) -> String {
    let mut buffer = vec![0; 32_768];
    let written = write(&table(block), block.as_bytes(), &mut buffer);
    assert_eq!(written.number, 0);
    String::from_utf8(buffer[..written.count].to_vec()).expect("ASCII")
}

#[test]
fn the_full_block_is_its_own_form() {
    assert_eq!(form(FULL), FULL);
    assert_eq!(changed(&[]), 0);
}

#[test]
fn i1_i2_counts_and_atoms() {
    for place in 0..7 {
        for value in [-1, i32::MIN, i32::MAX, 1_000_000, [257, 513, 65, 65, 129, 129, 1_000_000][place]] {
            assert_eq!(changed(&[(place, value)]), 21, "{value} at {place}");
        }
    }
    assert_eq!(number(&vec![0; 3856], b""), 21, "no atom");
    assert_eq!((changed(&[(6, 999_999)]), changed(&[(6, 0)])), (0, 0));
    for (place, sound, unsound) in [
        (16, vec![1, 103], vec![0, 104, -1]),
        (17, vec![0, 1, 2, 300], vec![301, -1]),
        (18, vec![0, 15], vec![16, -1]),
        (29, vec![1, 2, 0], vec![4, -1]),
        (30, vec![0, 1], vec![3, -1]),
    ] {
        sound.iter().for_each(|&value| assert_eq!(changed(&[(place, value)]), 0, "{value} at {place}"));
        unsound.iter().for_each(|&value| assert_eq!(changed(&[(place, value)]), 21, "{value} at {place}"));
    }
}

#[test]
fn i3_i4_bonds_charges_and_radicals() {
    let unsound: [&[(usize, i32)]; 16] = [
        &[(1296, 0)],
        &[(1297, 1)],
        &[(1297, 4)],
        &[(1298, 0)],
        &[(1298, 6)],
        &[(1299, 1), (1300, 2), (1301, 1)],
        &[(1299, 1), (1300, 2), (1301, 2)],
        &[(1296, 2), (1297, 1)],
        &[(1302, 1), (1303, 2)],
        &[(2832, 0)],
        &[(2832, 100)],
        &[(2833, -100)],
        &[(2896, 0)],
        &[(2897, 16)],
        &[(19, 2), (29, 2), (24, 1)],
        &[(19, 0), (29, 0)],
    ];
    for changes in unsound {
        assert_eq!(changed(changes), 21, "{changes:?}");
    }
    let sound: [&[(usize, i32)]; 5] =
        [&[(1298, 5)], &[(2832, 99)], &[(2833, -99)], &[(2896, 15)], &[(19, 1), (24, 2), (29, 3)]];
    for changes in sound {
        assert_eq!(changed(changes), 0, "{changes:?}");
    }
}

#[test]
fn i5_i6_stereo_and_zeros() {
    for group in [0, 65, 90, 97, 122] {
        assert_eq!((changed(&[(2962, group)]), changed(&[(3347, group)])), (0, 0), "{group}");
    }
    for group in [48, 64, 91, 96, 123, -1, 256 + 65] {
        assert_eq!((changed(&[(2962, group)]), changed(&[(3347, group)])), (21, 21), "{group}");
    }
    let unsound: [(usize, i32); 9] =
        [(2960, 0), (2960, 3), (2963, 4), (2961, 0), (2961, 3), (3346, 3), (3346, -1), (3344, 2), (3349, 2)];
    for change in unsound {
        assert_eq!(changed(&[change]), 21, "{change:?}");
    }
    assert_eq!(changed(&[(3346, 2), (3350, 0), (2961, 2)]), 0);
    let unused = [14, 15, 31, 35, 1295, 1305, 2831, 2835, 2895, 2898, 2959, 2966, 3343, 3356, 3855];
    for place in unused {
        assert_eq!((changed(&[(place, 1)]), changed(&[(place, -1)])), (21, 21), "{place}");
    }
    let mut longer = table(FULL);
    longer.push(-1);
    assert_eq!(number(&longer, FULL.as_bytes()), 0, "numbers from 3,856 on are not looked at");
}

/// The refusal number of neon's table with its title elsewhere.
fn titled(texts: &[u8], start: i32, length: i32) -> u32 {
    let mut table = table(NEON);
    table[7..13].copy_from_slice(&[start, length, 0, 0, 0, 0]);
    number(&table, texts)
}

#[test]
fn i7_to_i11_texts() {
    assert_eq!(titled(b"x", 0, 0), 0);
    assert_eq!(titled(b"x", 1, 0), 21, "an empty text is 0, 0");
    assert_eq!(titled(b"x", 0, 1), 0, "start 0 is not empty");
    for (start, length) in
        [(0, 2), (1, 1), (-1, 1), (-1, 2), (0, -1), (1, -1), (i32::MAX, 1), (i32::MAX, i32::MAX)]
    {
        assert_eq!(titled(b"x", start, length), 21, "{start} {length}");
    }
    assert_eq!(titled(b"x", i32::MIN, i32::MIN), 21);
    for text in
        [" a", "a ", "\ta", "a\r", "\na", "a\n", "a\n##b", "a\u{7f}", "a\u{0}b", "\u{e9}", "a\n##", " "]
    {
        assert_eq!(titled(text.as_bytes(), 0, text.len() as i32), 21, "{text:?}");
    }
    for text in ["##x", "a\n#", "a\r##b", "a\n ##b", "= $$ =", "a\r\n\r\n b", "a\t##", "a\n\n#b", "~", "!"] {
        assert_eq!(titled(text.as_bytes(), 0, text.len() as i32), 0, "{text:?}");
    }
    assert_eq!(titled(b"\n##x\x00", 1, 3), 0, "neighbours are not judged");
    let far = [&vec![0; 100_000][..], b"x"].concat();
    assert_eq!(titled(&far, 100_000, 1), 0, "the bytes lent may be long");
    let mut table = table(NEON);
    table[7..13].copy_from_slice(&[0, 3, 1, 2, 0, 3]);
    assert_eq!(number(&table, b"a=b"), 0, "texts may overlap");
}

#[test]
fn i12_the_order_of_refusals() {
    let text = vec![b'a'; 40_000];
    let mut long = table(NEON);
    long[7..13].copy_from_slice(&[0, 40_000, 0, 0, 0, 0]);
    assert_eq!(write(&long, &text, &mut []), Written { number: 23, count: 0 });
    assert_eq!(write(&long[..3855], &text, &mut []), Written { number: 1, count: 0 });
    long[15] = 1;
    assert_eq!(write(&long, &text, &mut []), Written { number: 21, count: 0 });
    long[15] = 0;
    // Neon without origin and owner is 84 bytes, its title 1: 32,768 leave 32,685 for the title.
    long[8] = 32_685;
    assert_eq!(write(&long, &text, &mut vec![0; 32_768]), Written { number: 0, count: 32_768 });
    assert_eq!(write(&long, &text, &mut vec![0; 32_767]), Written { number: 22, count: 0 });
    long[8] = 32_686;
    assert_eq!(write(&long, &text, &mut vec![0; 40_000]), Written { number: 23, count: 0 });
    let compact = NEON.replacen("##TITLE= a", &format!("##TITLE={}", "a".repeat(32_682)), 1);
    assert_eq!(compact.len(), 32_768);
    assert_eq!(number(&table(&compact), compact.as_bytes()), 23, "accepted, yet not writable");
}

#[test]
fn section_j_the_form() {
    let formula = |formula: &str, rows: &str| {
        let form = form(&NEON.replace("= Ne", &format!("= {formula}")).replace("1 Ne", rows));
        form.lines().find_map(|line| line.strip_prefix("##MOLFORM= ")).expect("a formula").to_string()
    };
    assert_eq!(formula("Br H", "1 Br 1"), "H Br");
    assert_eq!(formula("NaCl", "1 Na\n2 Cl"), "Na * Cl", "L1");
    assert_eq!(formula("NaCl", "1 Na\n2 Cl\n##BONDLIST=\n1 2 S"), "Cl Na");
    // a chain of atoms, so that they are one fragment
    let chained = |symbols: &str| {
        let rows = symbols.split(' ').zip(1..).map(|(symbol, number)| format!("{number} {symbol}\n"));
        let bonds = (2..=symbols.split(' ').count()).map(|atom| format!("\n{} {atom} S", atom - 1));
        formula(symbols, &(rows.collect::<String>() + "##BONDLIST=" + &bonds.collect::<String>()))
    };
    assert_eq!(chained("Ag ^4H T D ^1H H ^13C ^12C C C"), "C2 ^12C ^13C H ^1H D T ^4H Ag");
    assert_eq!(chained("Ne Nb Na N Be Ba B Ir In I"), "B Ba Be I In Ir N Na Nb Ne");
    assert!(form(&NEON.replace("Ne", "^2H")).ends_with("##MOLFORM= D\n##ATOMLIST=\n1 D\n##END=\n"), "J4");
    let empty = form(&NEON.replace("= a", "=").replace("= b", "=").replace("= c", "="));
    assert!(empty.starts_with("##TITLE=\n##JCAMP-CS= 3.7\n##ORIGIN=\n##OWNER=\n##MOLFORM= Ne\n"), "J2");
    let kept = form(&NEON.replacen("= a", "= a\r\n b $$ c", 1));
    assert!(kept.starts_with("##TITLE= a\r\n b $$ c\n##JCAMP-CS"), "J6");
}
