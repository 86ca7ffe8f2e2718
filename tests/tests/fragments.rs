//! Request L1, sentence by sentence. Each test has the sentence's words, the right answer, and in its
//! comments the wrong one that a writer might give.

mod given;

use galebonnet_tests::generate::fragments::sound_fragment_table;
use galebonnet_tests::generate::Random;
use given::*;

/// A worked example: a salt with a molecule of water, typed in any order, and its form.
const TYPED: &str = "##title= sodium formate hydrate\n##JCAMP_CS= 3.7\n##ORIGIN= bench 4\n\
    ##OWNER= public domain\n##MOLFORM= Na C O2 H*H2 O\n##ATOMLIST=\n1 O\n2 Na\n3 C 1\n4 O\n5 O\n6 H\n7 H\n\
    ##BONDLIST=\n7 1 S\n3 4 D\n6 1 S\n5 3 S\n2 5 A\n4 6 A\n##CHARGE=\n+1 2\n-1 5 4\n##END=\n";
const FORM: &str = "##TITLE= sodium formate hydrate\n##JCAMP-CS= 3.7\n##ORIGIN= bench 4\n\
    ##OWNER= public domain\n##MOLFORM= H2 O * Na * C H O2\n##ATOMLIST=\n1 O\n2 Na\n3 C 1\n4 O\n5 O\n6 H\n7 H\n\
    ##BONDLIST=\n1 6 S\n1 7 S\n2 5 A\n3 4 D\n3 5 S\n4 6 A\n##CHARGE=\n+1 2\n-1 4 5\n##END=\n";

#[test]
fn a_salt_is_written_group_by_group() {
    let typed = table(TYPED.as_bytes());
    assert_eq!(written(&typed, TYPED.as_bytes()).as_deref(), Ok(FORM));
    assert_eq!(written(&table(FORM.as_bytes()), FORM.as_bytes()).as_deref(), Ok(FORM));
}

/// "The archive keeper can't file salts that leave us as one lump formula." Wrong: the lump of document
/// 01.
#[test]
fn salts_are_no_lump() {
    // wrong: `Cl Na`
    assert_eq!(formula("Na, Cl", ""), "Na * Cl");
    // wrong: `C2 H3 Na O2`
    assert_eq!(formula("C 3, C, O, O, Na", "1 2 S, 2 3 D, 2 4 S"), "C2 H3 O2 * Na");
    // wrong: `H4 Cl N`
    assert_eq!(formula("N 4, Cl", ""), "H4 N * Cl");
}

/// "The writer now gives one fragment for each group of atoms joined by S, D, T or Q bonds". Wrong: by S
/// alone, or by direct neighbours alone.
#[test]
fn each_group_joined_by_s_d_t_or_q_is_one_fragment() {
    for kind in ["S", "D", "T", "Q"] {
        assert_eq!(formula("He, Ne, Ar", &format!("1 2 {kind}")), "He Ne * Ar");
        assert_eq!(formula("He, Ne, Ar", &format!("2 3 {kind}")), "He * Ar Ne");
        assert_eq!(formula("He, Ne, Ar", &format!("1 3 {kind}")), "Ar He * Ne");
    }
    // wrong: `He Ne * Ar Kr`, since 1 has no bond to 3 and 4
    assert_eq!(formula("He, Ne, Ar, Kr", "1 2 S, 2 3 D, 3 4 T"), "Ar He Kr Ne");
    // wrong: two groups, as far as the bonds have been looked at when 1 to 4 are met
    assert_eq!(formula("He, Ne, Ar, Kr", "1 4 S, 2 3 S, 3 4 S"), "Ar He Kr Ne");
    assert_eq!(formula("He, Ne, Ar, Kr, Xe", "1 5 S, 2 5 S, 3 5 S, 4 5 S"), "Ar He Kr Ne Xe");
    // a ring is a group like any other
    assert_eq!(formula("C 1, C 1, C 1, Ne", "1 2 S, 2 3 S, 1 3 S"), "C3 H3 * Ne");
    let one = formula("C 3, C 2, O, H", "1 2 S, 2 3 S, 3 4 S");
    assert_eq!(one, "C2 H6 O");
}

/// "... `A` not counting". Wrong: every bond joins, as in document 01's hydrogen-bonded dimers.
#[test]
fn a_does_not_count() {
    assert_eq!(formula("He, Ne, Ar", "1 2 A, 2 3 A, 1 3 A"), "He * Ne * Ar");
    let dimer = "1 2 D, 1 3 S, 4 5 D, 4 6 S";
    let acids = "C 1, O, O 1, C 1, O, O 1";
    assert_eq!(formula(acids, dimer), "C H2 O2 * C H2 O2");
    // wrong: `C2 H4 O4`
    assert_eq!(formula(acids, &format!("{dimer}, 3 5 A, 2 6 A")), "C H2 O2 * C H2 O2");
    // wrong: two groups, since an `A` stands between 1 and 3: the way over 2 joins them
    assert_eq!(formula("He, Ne, Ar", "1 2 S, 1 3 A, 2 3 S"), "Ar He Ne");
}

/// "... in order of their lowest atom". Wrong: by symbol, by size, with carbon first, by the highest atom,
/// or in the order in which the bonds name them.
#[test]
fn the_fragments_are_in_order_of_their_lowest_atom() {
    assert_eq!(formula("Xe, Na, C 4", ""), "Xe * Na * C H4");
    assert_eq!(formula("C 4, Na, Xe", ""), "C H4 * Na * Xe");
    // wrong: `Ar Ne * He Kr`, since 2 and 3 are bonded before 4 is met
    assert_eq!(formula("He, Ne, Ar, Kr", "1 4 S, 2 3 S"), "He Kr * Ar Ne");
    assert_eq!(formula("He, Ne, Ar, Kr", "1 3 S, 2 4 S"), "Ar He * Kr Ne");
    assert_eq!(formula("Xe, He, Ne, Ar, Kr", "2 5 S, 3 4 S"), "Xe * He Kr * Ar Ne");
}

/// "... parted by ` * `". Wrong: `*` alone, as it may be read; or one before the first or behind the last.
#[test]
fn the_fragments_are_parted_by_a_star_between_two_spaces() {
    for (atoms, bonds) in [("Ne, Ne, Ne", ""), ("H, Br, H", "1 2 S"), ("^13C 1, D, T 2", ""), ("U", "")] {
        let form = formula(atoms, bonds);
        let fragments: Vec<&str> = form.split(" * ").collect();
        assert_eq!(form.matches('*').count(), fragments.len() - 1, "{form}");
        assert!(
            fragments.iter().all(|fragment| !fragment.is_empty() && fragment.trim() == *fragment),
            "{form}"
        );
        assert!(!form.contains("  "), "{form}");
    }
}

/// "Each keeps the old order inside". Wrong: one order over all fragments, or the atoms' order.
#[test]
fn each_fragment_keeps_the_old_order_inside() {
    let isotopes = "Ag, ^4H, T, D, ^1H, H, ^13C, ^12C, C, C";
    let chain = |from: i32, to: i32| {
        (from..to).map(|atom| format!("{atom} {} S", atom + 1)).collect::<Vec<String>>().join(", ")
    };
    let inside = "C2 ^12C ^13C H ^1H D T ^4H Ag";
    assert_eq!(formula(isotopes, &chain(1, 10)), inside);
    let twice = format!("{isotopes}, {isotopes}");
    let bonds = format!("{}, {}", chain(1, 10), chain(11, 20));
    assert_eq!(formula(&twice, &bonds), format!("{inside} * {inside}"));
    let symbols = "Ne, Nb, Na, N, Be, Ba, B, Ir, In, I";
    assert_eq!(formula(&format!("C 4, {symbols}"), &chain(2, 11)), "C H4 * B Ba Be I In Ir N Na Nb Ne");
    // counts are those of the fragment: wrong: `H4 O2 * H4 O2`
    assert_eq!(formula("O 2, O 2", ""), "H2 O * H2 O");
    assert_eq!(formula("O 1, O 1, O 2", "1 2 S"), "H2 O2 * H2 O");
}

/// "... reading still goes by totals". Wrong: each fragment is held against a group, 15.
#[test]
fn reading_still_goes_by_totals() {
    let (atoms, bonds) = ("C 3, C, O, O, Na, O 2", "1 2 S, 2 3 D, 2 4 S");
    let read = table(&bonded(atoms, bonds));
    for formula in [
        "C2 H3 O2 * Na * H2 O",
        "H2 O * Na * C2 H3 O2",
        "C2 H5 Na O3",
        "C * C * H5 * Na * O3",
        "Na*C2 H3 O2*H2 O",
        "C2 H3 O2 Na * H2 O",
        "H2 H3 * C2 O3 Na",
        "H * H * H * H * H * C * C * Na * O * O * O",
    ] {
        let block = bonded_as(formula, atoms, bonds);
        let other = table(&block);
        assert_eq!((&other[..7], &other[13..]), (&read[..7], &read[13..]), "{formula}");
        // what was typed does not matter to what is written
        assert_eq!(written_formula(&block), "C2 H3 O2 * Na * H2 O", "{formula}");
    }
    for formula in ["C2 H3 O2 * Na", "C2 H3 O2 * Na * H2 O * H2 O", "C2 H3 O2 * K * H2 O"] {
        // wrong: 0@0, as each fragment is there
        let block = bonded_as(formula, atoms, bonds);
        assert_eq!(answer(&block), at_line(15, &block, "##END="), "{formula}");
    }
    for formula in ["C2 H3 O2 * * Na H2 O", "2 H2 O * C2 H3 Na", "C2 H5 Na O3 *"] {
        let block = bonded_as(formula, atoms, bonds);
        assert_eq!(answer(&block), at_line(9, &block, &format!("##MOLFORM= {formula}")));
    }
}

/// "Demand 2's written form is this one from here on": it is read to the same table, and written again to
/// the same bytes; what it says is one fragment for each group of the table.
#[test]
fn what_is_written_comes_back() {
    let mut random = Random::new(81);
    let mut several = 0;
    for _ in 0..5_000 {
        let (read, texts) = sound_fragment_table(&mut random);
        let form = written(&read, &texts).expect("a form");
        let back = table(form.as_bytes());
        assert_eq!((&back[..7], &back[13..]), (&read[..7], &read[13..]), "{form}");
        assert_eq!(written(&back, form.as_bytes()).as_ref(), Ok(&form));
        let fragments = formula_in(&form).split(" * ").count();
        assert_eq!(fragments, lowest_atoms(&read), "{form}");
        several += usize::from(fragments > 1);
    }
    assert!(several > 3_500, "only {several} of 5,000 tables have several groups");
}

/// How many atoms are the lowest of their group, found by handing the lower number on over each bond until
/// nothing changes.
fn lowest_atoms(read: &[i32]) -> usize {
    let mut lowest: Vec<i32> = (0..=read[0]).collect();
    let mut changes = true;
    while changes {
        changes = false;
        for bond in read[1296..1296 + 3 * read[1] as usize].chunks_exact(3).filter(|bond| bond[2] != 5) {
            let (one, other) = (bond[0] as usize, bond[1] as usize);
            let least = lowest[one].min(lowest[other]);
            changes |= lowest[one] != least || lowest[other] != least;
            (lowest[one], lowest[other]) = (least, least);
        }
    }
    (1..=read[0]).filter(|&atom| lowest[atom as usize] == atom).count()
}
