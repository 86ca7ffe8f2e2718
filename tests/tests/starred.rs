//! Document 01, "Neon and its neighbours": every case, starred or not.

use galebonnet_tests::generate::crowded::Crowded;
use galebonnet_tests::generate::neon::{followed, removed, replaced, NEON};
use galebonnet_tests::independent::{check, read_table, Answer};

fn answer(block: &[u8]) -> (u32, usize) {
    let mut table = vec![7; 3856];
    let Answer { number, place } = read_table(block, &mut table);
    assert_eq!(check(block), (u64::from(number) << 32) + place as u64);
    (number, place)
}

fn neon_with(place: usize, text: &str) -> Vec<u8> {
    replaced(place, text.as_bytes()).expect("a line of neon starts there")
}

#[test]
fn the_starred_cases() {
    assert_eq!(NEON.len(), 88);
    assert_eq!(answer(NEON.as_bytes()), (0, 0));
    assert_eq!(answer(b""), (4, 0));
    assert_eq!(answer(&neon_with(76, "2 Ne")), (11, 76));
    assert_eq!(answer(&neon_with(76, "1 ne")), (9, 76));
    assert_eq!(answer(&neon_with(76, "1 Xx")), (12, 76));
    assert_eq!(answer(&neon_with(50, "##MOLFORM= Ne2")), (15, 82));
    assert_eq!(answer(&neon_with(50, "##MOLFORM= Ne0")), (10, 50));
    assert_eq!(answer(&removed(81).expect("END stands at 81")), (16, 81));
    assert_eq!(answer(&neon_with(11, "##JCAMP-CS= 3.70")), (7, 11));
    assert_eq!(answer(&followed(b"x\n")), (17, 88));
    assert_eq!(answer(&followed(b"\n")), (0, 0));
}

#[test]
fn the_other_cases() {
    assert_eq!(answer(&Crowded::with_atoms(256).block()), (0, 0));
    let over = Crowded::with_atoms(257).block();
    let place = String::from_utf8(over.clone()).expect("ASCII").find("257 H\n").expect("the last row");
    assert_eq!(answer(&over), (14, place));
    let charge = |row: &str| answer(&neon_with(81, &format!("##CHARGE=\n{row}\n##END=")));
    assert_eq!(charge("99 1"), (0, 0));
    assert_eq!(charge("100 1"), (10, 91));
    assert_eq!(charge("0 1"), (10, 91));
    assert_eq!(charge("+1 1 1"), (13, 91));
    let oxide = |formula: &str| {
        let block = NEON.replace("= Ne", &format!("= {formula}")).replace("1 Ne", "1 C\n2 O");
        answer(block.as_bytes())
    };
    assert_eq!(oxide("CO"), (9, 50));
    assert_eq!(oxide("C O"), (0, 0));
}
