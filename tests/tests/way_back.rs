//! What is written is read back: the same table but for the six text places, the same texts, and
//! written again the same bytes.

use galebonnet_tests::generate::fragments::sound_fragment_table;
use galebonnet_tests::generate::tables::sound_table;
use galebonnet_tests::generate::{table_case, Random};
use galebonnet_tests::independent::{read_table, write, Answer};

/// The three texts of a table in the bytes they stand in.
fn texts<'a>(table: &[i32], bytes: &'a [u8]) -> Vec<&'a [u8]> {
    let text = |which: usize| {
        let (start, length) = (table[7 + 2 * which] as usize, table[8 + 2 * which] as usize);
        &bytes[start..start + length]
    };
    (0..3).map(text).collect()
}

/// The table without its six text places.
fn without_places(table: &[i32]) -> Vec<i32> {
    [&table[..7], &table[13..3856]].concat()
}

fn comes_back(table: &[i32], bytes: &[u8]) {
    let mut buffer = vec![b'?'; 32_768];
    let written = write(table, bytes, &mut buffer);
    assert_eq!(written.number, 0, "not written: {}", bytes.escape_ascii());
    let form = &buffer[..written.count];
    assert!(buffer[written.count..].iter().all(|&byte| byte == b'?'));
    let mut back = vec![-1; 3856];
    assert_eq!(read_table(form, &mut back), Answer { number: 0, place: 0 }, "{}", form.escape_ascii());
    assert_eq!(without_places(&back), without_places(table), "{}", form.escape_ascii());
    assert_eq!(texts(&back, form), texts(table, bytes));
    let mut again = vec![0; written.count];
    assert_eq!(write(&back, form, &mut again), written);
    assert_eq!(again, form);
}

#[test]
fn twenty_thousand_sound_tables_come_back() {
    let mut random = Random::new(20);
    for _ in 0..20_000 {
        let (table, bytes) = sound_table(&mut random);
        comes_back(&table, &bytes);
    }
}

#[test]
fn ten_thousand_tables_of_several_groups_come_back() {
    let mut random = Random::new(22);
    for _ in 0..10_000 {
        let (table, bytes) = sound_fragment_table(&mut random);
        comes_back(&table, &bytes);
    }
}

#[test]
fn whatever_is_written_comes_back() {
    let mut random = Random::new(21);
    let mut written = 0;
    for _ in 0..6_000 {
        let case = table_case(&mut random);
        let mut buffer = vec![b'?'; case.room];
        match write(&case.table, &case.texts, &mut buffer).number {
            0 => {
                comes_back(&case.table, &case.texts);
                written += 1;
            }
            _ => assert!(buffer.iter().all(|&byte| byte == b'?'), "a refusal wrote"),
        }
    }
    assert!(written > 1_000, "only {written} of the cases were written");
}
