//! One table: written, and what was written read again.

use galebonnet::door;
use galebonnet_tests::generate::fragments::told_by_fragments;
use galebonnet_tests::generate::helical::refused_by_number_13;
use galebonnet_tests::generate::TableCase;
use galebonnet_tests::independent;

use super::blocks::LONG;
use super::held::{Guarded, Held};

/// What stands around a lent table, around the texts, and in and around the buffer before.
const NUMBER: i32 = 1;
const TEXT: u8 = b'a';
const BYTE: u8 = 0xfe;

/// Compares number, count and whole buffer, and goes the way back where something was written.
pub fn compared(held: &mut Held, case: &TableCase) {
    held.tables += 1;
    let table = Guarded::new(&case.table, NUMBER);
    let texts = Guarded::new(&case.texts, TEXT);
    let mut buffer = Guarded::new(&vec![BYTE; case.room], BYTE);
    let mut wanted = Guarded::new(&vec![BYTE; case.room], BYTE);
    let before = (table.all.clone(), texts.all.clone());
    let (number, count) = door::write(table.part(), texts.part(), buffer.part_mut());
    let written = independent::write(&case.table, &case.texts, wanted.part_mut());
    held.written(written.number);
    held.helical(refused_by_number_13(&case.table, &case.texts));
    held.fragments(told_by_fragments(&case.table, &case.texts));
    let input = &case.texts;
    held.same("write", input, (number, count), (written.number, written.count));
    held.same_list("write, buffer and around it", input, &buffer.all, &wanted.all);
    held.same_list("write, table and around it", input, &table.all, &before.0);
    held.same_list("write, texts and around them", input, &texts.all, &before.1);
    if (number, count) == (0, written.count) {
        way_back(held, case, &buffer.part()[..count]);
    }
}

/// "Reading that form gives the table and texts back", and written again it is the same bytes.
fn way_back(held: &mut Held, case: &TableCase, form: &[u8]) {
    let (mut table, mut positions) = (vec![-1; LONG.0], vec![-1.0; LONG.1]);
    held.same("the form is accepted", form, door::read(form, &mut table, &mut positions), (0, 0));
    held.same("the form has no positions", form, positions.iter().any(|float| float.to_bits() != 0), false);
    held.same_list("the form's table", form, &without_texts(&table), &without_texts(&case.table));
    held.same("the form's texts", form, texts(&table, form), texts(&case.table, &case.texts));
    let mut again = Guarded::new(&vec![BYTE; form.len()], BYTE);
    held.same("the form written again", form, door::write(&table, form, again.part_mut()), (0, form.len()));
    held.same_list("its bytes and around them", form, &again.all, &Guarded::new(form, BYTE).all);
}

/// The table without the six numbers of its texts' places.
fn without_texts(table: &[i32]) -> Vec<i32> {
    [&table[..7], &table[13..3856]].concat()
}

/// The three texts in the bytes that they stand in; none where one lies outside.
fn texts<'a>(table: &[i32], bytes: &'a [u8]) -> [Option<&'a [u8]>; 3] {
    [7, 9, 11].map(|at| bytes.get(table[at] as usize..)?.get(..table[at + 1] as usize))
}
