//! Open points K and L: the walk, the program's lines, the name and the C host's check, by hand.

use galebonnet_tests::generate::neon::NEON;
use galebonnet_tests::independent::{check, name, pieces, walk, walk_lines, Walked};

fn block(start: usize, end: usize) -> Walked {
    Walked::Block { start, end }
}

fn stray(start: usize, end: usize) -> Walked {
    Walked::Stray { start, end }
}

#[test]
fn k1_k2_title_and_end_lines() {
    assert_eq!(walk(b"##TITLE= \xff", 0), block(0, 10));
    assert_eq!(walk(b"##TIT\xffLE= a\n", 0), stray(0, 12));
    for line in ["##TITLE", " ##TITLE=", "##TITLE\t=", "#TITLE=", "##TITEL="] {
        assert_eq!(walk(line.as_bytes(), 0), stray(0, line.len()), "{line}");
    }
    assert_eq!(walk_lines(&NEON.replace("##END=", "##END= x").into_bytes()), "B 0 90 9 81 0 0\n");
    assert_eq!(pieces(b"##TITLE= a\n##END= x\nz"), [block(0, 20), stray(20, 21)]);
    assert_eq!(pieces(b"##TITLE= a\n##END\n##END=\n"), [block(0, 24)]);
    assert_eq!(walk_lines(b"##TITLE= a\n##END\n##END=\n"), "B 0 24 5 11 0 0\n");
    assert_eq!(pieces(b"##title=\n##DATE=\n## e-n_D=\n"), [block(0, 27)]);
}

#[test]
fn k3_to_k5_ends_of_blocks_and_stray_runs() {
    assert_eq!(walk_lines(format!("{NEON}\n").as_bytes()), "B 0 88 0 0 1 0\nS 88 89\n");
    assert_eq!(walk_lines(&NEON.as_bytes()[..87]), "B 0 87 0 0 1 0\n");
    let nested = format!("##TITLE= o\n{NEON}##END=\n{NEON}");
    assert_eq!(
        walk_lines(nested.as_bytes()),
        "B 0 11 16 11 0 0\nB 11 99 0 0 1 0\nS 99 106\nB 106 194 0 0 1 0\n"
    );
    assert_eq!(pieces(b"\n\n##END=\nx\n##END="), [stray(0, 17)]);
    assert_eq!(pieces(b""), []);
}

#[test]
fn k6_to_k8_places_and_limits() {
    assert_eq!(walk(b"x##TITLE= a", 1), block(1, 11));
    assert_eq!(walk(b"x##TITLE= a", 0), stray(0, 11));
    let two = format!("{NEON}{NEON}");
    assert_eq!(walk(two.as_bytes(), 11), stray(11, 88));
    assert_eq!(walk(two.as_bytes(), 87), stray(87, 88));
    assert_eq!(walk(b"", 0), Walked::Finished);
    assert_eq!(walk(b"", 1), Walked::Refused(32));
    assert_eq!(walk(b"x", usize::MAX), Walked::Refused(32));
    let mut long = vec![b'\n'; 16_777_216];
    assert_eq!(walk(&long, 0), stray(0, 16_777_216));
    assert_eq!(walk(&long, 16_777_216), Walked::Finished);
    long.push(b'\n');
    for place in [0, 16_777_217, 16_777_218] {
        assert_eq!(walk(&long, place), Walked::Refused(31));
    }
    assert_eq!(pieces(&long), [Walked::Refused(31)]);
}

#[test]
fn l1_l2_the_program() {
    assert_eq!(walk_lines(b""), "");
    assert_eq!(walk_lines(&[b'x'; 65_536]), "S 0 65536\n");
    assert_eq!(walk_lines(&[b'x'; 65_537]), "L\n");
    let long = format!("z\n##TITLE= {}", "a".repeat(32_760));
    assert_eq!(walk_lines(long.as_bytes()), "S 0 2\nB 2 32771 2 2 0 0\n");
    assert_eq!(walk_lines(format!("z\n{NEON}").as_bytes()), "S 0 2\nB 2 90 0 0 1 0\n");
    assert_eq!(walk_lines(b"z\n##TITLE= a"), "S 0 2\nB 2 12 16 12 0 0\n");
    let bonded = NEON.replace("= Ne", "= Ne2").replace("1 Ne", "1 Ne\n2 Ne\n##BONDLIST=\n1 2 S\n2 1 S");
    assert_eq!(walk_lines(bonded.as_bytes()), format!("B 0 {} 0 0 2 1\n", bonded.len()));
}

#[test]
fn l3_the_name() {
    let stand_in: &[u8] = b"unnamed";
    assert_eq!(name(NEON.as_bytes(), stand_in), b"a");
    assert_eq!(name(b"##TITLE=\n foo\n", stand_in), b"foo");
    assert_eq!(name(b"##TITLE= a\r\n b \n## no label\n", stand_in), b"a\r\n b");
    assert_eq!(name(b"##TITLE= \xff \n##", stand_in), b"\xff");
    assert_eq!(name(b"##TITLE= a $$ b=c", stand_in), b"a $$ b=c");
    assert_eq!(name(b"##TITLE= \n\n##END=\n", stand_in), stand_in);
    for block in ["", "\n##TITLE= a\n", "##TITLE", "x", "##ORIGIN= b\n"] {
        assert_eq!(name(block.as_bytes(), stand_in), stand_in, "{block:?}");
    }
    assert_eq!(name(b"##TITLE=", b""), b"");
    let long = [b"##TITLE= ", &vec![b'a'; 40_000][..]].concat();
    assert_eq!(name(&long, stand_in), &long[9..]);
}

#[test]
fn l4_the_check() {
    assert_eq!(check(NEON.as_bytes()), 0);
    assert_eq!(check(b""), 4 << 32);
    assert_eq!(check(&[b'x'; 32_769]), 2 << 32);
    assert_eq!(check(b"##TITLE= a\n"), (16 << 32) + 11);
    assert_eq!(check(&NEON.replace("1 Ne", "2 Ne").into_bytes()), (11 << 32) + 76);
}
