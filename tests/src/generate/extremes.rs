//! Tables that no reader fills: one number everywhere, any numbers, counts out of all bounds, every
//! list full, texts far off in long bytes. See `tables` for sound and slightly disturbed ones.

use super::random::Random;
use super::tables::{roomed, sound_table, TableCase};
use super::typical::full_block;
use crate::independent::read_table;
use crate::independent::table::NUMBERS;

/// Numbers at the ends of what can be lent and of what the rules allow.
const NUMBERS_AT_ENDS: [&i32; 12] =
    [&i32::MIN, &i32::MAX, &-1, &0, &1, &2, &103, &256, &512, &3856, &65_536, &0x4000_0000];

/// An extreme case; some of them are written.
pub fn extreme_case(random: &mut Random) -> TableCase {
    match random.below(10) {
        0 => {
            let number = *random.pick(&NUMBERS_AT_ENDS);
            any(random, vec![number; NUMBERS])
        }
        1 => {
            let table = (0..NUMBERS).map(|_| random.bits() as i32).collect();
            any(random, table)
        }
        2 => {
            let table = (0..NUMBERS).map(|_| *random.pick(&NUMBERS_AT_ENDS)).collect();
            any(random, table)
        }
        3..=5 => disturbed_counts(random),
        6 | 7 => full(random),
        _ => far_texts(random),
    }
}

/// A table that is hardly sound, with some texts and a buffer.
fn any(random: &mut Random, table: Vec<i32>) -> TableCase {
    let texts = vec![b'a'; random.below(40)];
    TableCase { table, texts, room: random.below(200) }
}

/// A sound table with some of its first sixteen numbers at the ends.
fn disturbed_counts(random: &mut Random) -> TableCase {
    let (mut table, texts) = sound_table(random);
    for _ in 0..1 + random.below(3) {
        table[random.below(16)] = *random.pick(&NUMBERS_AT_ENDS);
    }
    roomed(random, table, texts)
}

/// Every list full; sometimes one number of it changed.
fn full(random: &mut Random) -> TableCase {
    let block = full_block();
    let mut table = vec![0; NUMBERS];
    assert_eq!(read_table(&block, &mut table).number, 0, "the full block is refused");
    if random.chance(50) {
        table[random.below(NUMBERS)] = *random.pick(&NUMBERS_AT_ENDS);
    }
    roomed(random, table, block)
}

/// A sound table whose texts stand far off, among bytes that are not allowed.
fn far_texts(random: &mut Random) -> TableCase {
    let (mut table, texts) = sound_table(random);
    let before = random.below(100_000);
    for which in 0..3 {
        if table[8 + 2 * which] > 0 {
            table[7 + 2 * which] += before as i32;
        }
    }
    let behind = random.below(1_000);
    roomed(random, table, [vec![0xff; before], texts, vec![0xff; behind]].concat())
}
