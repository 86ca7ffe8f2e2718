//! Request L1, the points 1.1 to 1.7 that its words leave open, with our decision on each. The other
//! answer stands in the comments.

mod given;

use galebonnet_tests::generate::neon::NEON;
use galebonnet_tests::independent::write;
use given::*;

/// So many times the same, parted.
fn times(count: usize, one: &str, parting: &str) -> String {
    vec![one; count].join(parting)
}

/// 1.1 A group is what bonds of the four kinds connect, over any number of atoms; an atom without such a
/// bond is a group alone. The lowest atom number decides the order, not the symbol.
#[test]
fn point_1_groups() {
    // the other answers: `Cl Na`, one lump; or `Cl * Na`, the fragments by symbol too
    assert_eq!(formula("Na, Cl", ""), "Na * Cl");
    assert_eq!(formula("Cl, Na", ""), "Cl * Na");
    // the other answer: `Ne256`, since no bond makes a group
    assert_eq!(formula(&times(256, "Ne", ", "), ""), times(256, "Ne", " * "));
    // the other answer: a fragment is cut where the chain goes down in number
    let down: Vec<String> = (1..256).rev().map(|atom| format!("{} {atom} S", atom + 1)).collect();
    assert_eq!(formula(&times(256, "C 2", ", "), &down.join(", ")), "C256 H512");
    // 128 pairs, each within the one before
    let nested: Vec<String> = (1..=128).map(|atom| format!("{atom} {} D", 257 - atom)).collect();
    let atoms = format!("{}, {}", times(128, "O", ", "), times(128, "C 2", ", "));
    assert_eq!(formula(&atoms, &nested.join(", ")), times(128, "C H2 O", " * "));
    // all at the last atom
    let star: Vec<String> = (1..256).map(|atom| format!("{atom} 256 S")).collect();
    assert_eq!(formula(&format!("{}, U", times(255, "F", ", ")), &star.join(", ")), "F255 U");
}

/// 1.1 The two chains of odd and of even atoms, with 512 bonds: they take turns and stay two.
#[test]
fn point_1_groups_that_take_turns() {
    let mut bonds = Vec::new();
    for apart in [2, 4, 6] {
        bonds.extend((1..=256 - apart).map(|atom| format!("{atom} {} S", atom + apart)));
    }
    bonds.truncate(512);
    let atoms = times(128, "He, Ne", ", ");
    assert_eq!(formula(&atoms, &bonds.join(", ")), "He128 * Ne128");
    // one bond more between them, or one of `A`
    bonds.truncate(511);
    bonds.push("255 256 Q".to_string());
    assert_eq!(formula(&atoms, &bonds.join(", ")), "He128 Ne128");
    bonds[511] = "255 256 A".to_string();
    assert_eq!(formula(&atoms, &bonds.join(", ")), "He128 * Ne128");
}

/// 1.2 Implied hydrogens belong to their atom's group; a listed H without such a bond is alone.
#[test]
fn point_2_hydrogens() {
    // the other answers: `H2 * O * Na`, or `O * Na * H2`, the hydrogens by themselves
    assert_eq!(formula("O 2, Na", ""), "H2 O * Na");
    assert_eq!(formula("Na 1, O 2", ""), "H Na * H2 O");
    // the other answer: `H3 O`, since a hydrogen belongs to what stands beside it
    assert_eq!(formula("O 2, H", ""), "H2 O * H");
    assert_eq!(formula("O 2, H", "1 2 A"), "H2 O * H");
    assert_eq!(formula("O 2, H", "1 2 S"), "H3 O");
    assert_eq!(formula("H, O, H", "1 2 S, 2 3 S"), "H2 O");
    // the hydrogens of a D are H of its fragment
    assert_eq!(formula("D 1, T 2, ^1H 3", ""), "H D * H2 T * H3 ^1H");
    assert_eq!(formula("H 1, H 1", ""), "H2 * H2");
}

/// 1.3 Equal fragments are not gathered: one for each group.
#[test]
fn point_3_equal_fragments() {
    // the other answers: `2 H2 O`, which is refused 9 when it is read; or `H4 O2`
    assert_eq!(formula("O 2, O 2", ""), "H2 O * H2 O");
    assert_eq!(formula("O 2, Cu, O 2, O 2", ""), "H2 O * Cu * H2 O * H2 O");
    // the other answer: `H2 O * H2 O * Cu`, equal ones beside each other
    assert_eq!(formula("O 2, Cu, O, H, H", "3 4 S, 3 5 S"), "H2 O * Cu * H2 O");
}

/// 1.4 Only bonds that stand in the table join, and `A` does not; stereo pairs, centres, charges and
/// radicals spread over two atoms do not either.
#[test]
fn point_4_what_joins() {
    let others = "##CHARGE=\n+1 1 2 3\n##RADICAL=\n2 1 3\n##STEREOCENTER=\n1 P A\n2 P A\n\
        ##STEREOPAIR=\n1 2 P\n1 3 M A\n2 3 0\n##END=";
    let text = String::from_utf8(bonded("He, Ne, Ar", "")).expect("ASCII").replace("##END=", others);
    // the other answer: `Ar He Ne`, since a pair is a double bond
    assert_eq!(written_formula(text.as_bytes()), "He * Ne * Ar");
    let (ring, iron) = ("C 1, C 1, C 1, C 1, C 1", "Fe");
    let rings = "1 2 S, 2 3 S, 3 4 S, 4 5 S, 1 5 S, 7 8 S, 8 9 S, 9 10 S, 10 11 S, 7 11 S";
    let loose: Vec<String> = (1..=11).filter(|&atom| atom != 6).map(|atom| format!("{atom} 6 A")).collect();
    let ferrocene = bonded(&format!("{ring}, {iron}, {ring}"), &format!("{rings}, {}", loose.join(", ")));
    // the other answer: `C10 H10 Fe`
    assert_eq!(written_formula(&ferrocene), "C5 H5 * Fe * C5 H5");
    // a bond that is listed twice is one, in either order
    assert_eq!(formula("He, Ne, Ar", "2 1 S, 1 2 S"), "He Ne * Ar");
}

/// 1.5 C, H, then by symbol in every fragment, where there is no carbon too.
#[test]
fn point_5_without_carbon() {
    // the other answers: `Br H` as Hill has it, or in the order listed
    assert_eq!(formula("Br 1", ""), "H Br");
    assert_eq!(formula("Br, H", "1 2 S"), "H Br");
    // the other answer: `C H4 * Br H`, since only the first has carbon
    assert_eq!(formula("C 4, Br 1", ""), "C H4 * H Br");
    assert_eq!(formula("Al 3, B 3, Cl", "1 2 S"), "H6 Al B * Cl");
}

/// 1.6 The form is longer by its fragments: a table that was written before may be 23 now.
#[test]
fn point_6_the_longest_form() {
    let block = bonded("He, He", "");
    let mut read = table(&block);
    let form = written(&read, &block).expect("a form");
    assert!(form.contains("##MOLFORM= He * He\n"), "{form}");
    let texts = vec![b'a'; 40_000];
    let longest = 32_768 - form.len() + 1;
    // the other answer: 0 for four bytes more, as `He2` is written
    for (length, number) in [(longest, 0), (longest + 1, 23), (longest + 4, 23)] {
        read[7..9].copy_from_slice(&[0, length as i32]);
        let mut buffer = vec![b'?'; 40_000];
        let written = write(&read, &texts, &mut buffer);
        assert_eq!(written.number, number, "a title of {length} bytes");
        assert_eq!(written.count, if number == 0 { 32_768 } else { 0 });
        assert!(number == 0 || buffer.iter().all(|&byte| byte == b'?'));
        assert_eq!(write(&read, &texts, &mut [0; 32_767]).number, if number == 0 { 22 } else { 23 });
    }
    // joined, the two are one fragment, and the bond's own row is in the form
    let joined = bonded("He, He", "1 2 S");
    assert_eq!(
        written(&table(&joined), &joined).expect("a form").len(),
        form.len() - 4 + "##BONDLIST=\n1 2 S\n".len()
    );
}

/// 1.7 What is one group is written as before: formic acid and neon.
#[test]
fn point_7_one_group_stays() {
    let formic = "##TITLE= formic acid\n##JCAMP-CS= 3.7\n##ORIGIN= bench 4\n##OWNER= public domain\n\
        ##MOLFORM= C H2 O2\n##ATOMLIST=\n1 C 1\n2 O\n3 O 1\n##BONDLIST=\n1 2 D\n1 3 S\n##END=\n";
    for form in [formic, NEON] {
        assert_eq!(written(&table(form.as_bytes()), form.as_bytes()).as_deref(), Ok(form));
    }
    // and with two groups: the same acid beside neon, in either order
    let acid = "C 1, O, O 1";
    assert_eq!(formula(&format!("{acid}, Ne"), "1 2 D, 1 3 S"), "C H2 O2 * Ne");
    assert_eq!(formula(&format!("Ne, {acid}"), "2 3 D, 2 4 S"), "Ne * C H2 O2");
}
