//! Tables for the writer: sound ones, slightly disturbed ones, short ones, forms too long and
//! buffers too short.

use super::blocks::sound_block;
use super::fragments::fragment_table_case;
use super::random::Random;
use super::structures::structure;
use crate::independent::table::{laid_out, Structure, HELICAL_AT, LONGEST_BLOCK, NUMBERS};
use crate::independent::{read_table, write};

/// A table, the bytes its texts stand in, and the length of the buffer.
#[derive(Clone, Debug, PartialEq)]
pub struct TableCase {
    pub table: Vec<i32>,
    pub texts: Vec<u8>,
    pub room: usize,
}

/// A case of any kind; each answer 0, 1, 21, 22 and 23 comes often. One of ten is made for its groups.
pub fn table_case(random: &mut Random) -> TableCase {
    if random.chance(10) {
        return fragment_table_case(random);
    }
    let (mut table, mut texts) = sound_table(random);
    match random.below(100) {
        0..=34 => {}
        35..=69 => {
            disturb(random, &mut table, &mut texts);
            if random.chance(20) {
                disturb(random, &mut table, &mut texts);
            }
        }
        70..=76 => table.truncate(*random.pick(&[&0, &1, &16, &3854, &3855])),
        77..=86 => lengthen(random, &mut table, &mut texts),
        _ => {
            let length = form_length(&table, &texts);
            let less = if random.chance(50) { 1 } else { 1 + random.below(length) };
            return TableCase { table, texts, room: length - less };
        }
    }
    if table.len() == NUMBERS && random.chance(10) {
        table.extend([7, -1, i32::MIN]);
    }
    roomed(random, table, texts)
}

/// A buffer that is mostly long enough, often exactly so.
pub fn roomed(random: &mut Random, table: Vec<i32>, texts: Vec<u8>) -> TableCase {
    let length = form_length(&table, &texts);
    let room = match random.below(10) {
        0..=3 => length,
        4..=7 => length + random.below(40),
        8 => LONGEST_BLOCK,
        _ => random.below(length + 1),
    };
    TableCase { table, texts, room }
}

/// How many bytes the table is written in; 0 where it is refused.
fn form_length(table: &[i32], texts: &[u8]) -> usize {
    write(table, texts, &mut vec![0; LONGEST_BLOCK]).count
}

/// A sound table with its texts: read from a sound block, or made directly.
pub fn sound_table(random: &mut Random) -> (Vec<i32>, Vec<u8>) {
    if random.chance(40) {
        let block = sound_block(random);
        let mut table = vec![0; NUMBERS];
        let answer = read_table(&block, &mut table);
        assert_eq!(answer.number, 0, "a sound block is refused: {}", block.escape_ascii());
        return (table, block);
    }
    let content = structure(random);
    placed_table(random, content)
}

/// The table of a structure with texts put into bytes, and these bytes.
pub(super) fn placed_table(random: &mut Random, mut content: Structure) -> (Vec<i32>, Vec<u8>) {
    let texts = place_texts(random, &mut content);
    (laid_out(&content), texts)
}

const TEXTS: [&str; 14] = [
    "x",
    "a b",
    "formic acid",
    "##x",
    "= 1",
    "$$ kept $$",
    "a\r\n b",
    "a\n#",
    "a\n ##b",
    "a\r##b",
    "##END=",
    "a\n\n\t\nb",
    "~",
    "#",
];

/// Puts three texts into bytes: apart, at the start, coinciding or overlapping, or empty.
fn place_texts(random: &mut Random, content: &mut Structure) -> Vec<u8> {
    let mut texts = Vec::new();
    if random.chance(60) {
        texts.extend(random.pick(&["\n", "\u{e9}", " pad ", "\n\n"]).bytes());
    }
    for which in 0..3 {
        let before = if which == 0 { (0, 0) } else { content.texts[which - 1] };
        content.texts[which] = match random.below(10) {
            0 | 1 => (0, 0),
            2 if before.1 > 0 => before,
            3 if before.1 > 0 => (before.0, 1),
            4 if before.1 > 0 => (before.0 + before.1 - 1, 1),
            _ => {
                let text = random.pick(&TEXTS);
                let start = texts.len();
                texts.extend(text.bytes());
                (start, text.len())
            }
        };
        texts.extend(random.pick(&["", " ", "\n", "\u{0}", "\n##"]).bytes());
    }
    texts
}

/// Makes the form about as long as allowed, or longer, by long texts that may coincide.
pub(super) fn lengthen(random: &mut Random, table: &mut [i32], texts: &mut Vec<u8>) {
    let long = random.pick(&[&11_000, &16_500, &33_000]);
    let start = texts.len() as i32;
    texts.extend(std::iter::repeat_n(b'a', *long));
    let copies = 33_000 / *long;
    for which in 0..copies {
        table[7 + 2 * which] = start;
        table[8 + 2 * which] = *long as i32;
    }
    if random.chance(50) {
        // Exactly at the limit, or one over it: the last of the long texts is cut to fit.
        let last = 8 + 2 * (copies - 1);
        table[last] -= 10_000;
        let length = form_length(table, texts) as i32;
        let over = random.between(0, 1);
        table[last] += LONGEST_BLOCK as i32 - length + over;
    }
}

/// One disturbance of the table or its texts.
pub(super) fn disturb(random: &mut Random, table: &mut [i32], texts: &mut Vec<u8>) {
    match random.below(9) {
        0 | 1 => disturb_used(random, table),
        2 => disturb_head(random, table),
        3 => table[random.below(NUMBERS)] = extreme(random),
        4 => swap_rows(random, table),
        5 => disturb_span(random, table, texts.len()),
        6 => disturb_text_bytes(random, table, texts),
        7 => table[HELICAL_AT] = *random.pick(&[&1, &1, &1, &2, &-1, &0, &i32::MIN, &i32::MAX]),
        _ => disturb_behind(random, table),
    }
}

fn extreme(random: &mut Random) -> i32 {
    *random.pick(&[&i32::MIN, &i32::MAX, &-1, &0, &1, &2, &48, &103, &104, &300, &301, &999_999, &1_000_000])
}

/// The lists: count's place, first row, a row's numbers.
const LISTS: [(usize, usize, usize); 6] =
    [(0, 16, 5), (1, 1296, 3), (2, 2832, 1), (3, 2896, 1), (4, 2960, 3), (5, 3344, 4)];

/// A list that has rows: its first row, its numbers a row, its count.
fn used_list(random: &mut Random, table: &[i32]) -> (usize, usize, usize) {
    let filled: Vec<(usize, usize, usize)> =
        LISTS.into_iter().filter(|&(count, _, _)| table[count] > 0 && table[count] <= 512).collect();
    if filled.is_empty() {
        return (16, 5, 1);
    }
    let (count, from, width) = filled[random.below(filled.len())];
    (from, width, table[count] as usize)
}

/// A number of a used row changed by a little or to an extreme.
fn disturb_used(random: &mut Random, table: &mut [i32]) {
    let (from, width, count) = used_list(random, table);
    let place = (from + random.below(width * count)).min(NUMBERS - 1);
    table[place] = match random.below(3) {
        0 => table[place].wrapping_add(1),
        1 => table[place].wrapping_sub(1),
        _ => extreme(random),
    };
}

fn disturb_head(random: &mut Random, table: &mut [i32]) {
    let place = random.below(16);
    table[place] = match random.below(3) {
        0 => table[place].wrapping_add(1),
        1 => table[place].wrapping_sub(1),
        _ => extreme(random),
    };
}

/// Two rows swapped, or one copied over the next.
fn swap_rows(random: &mut Random, table: &mut [i32]) {
    let (from, width, count) = used_list(random, table);
    let one = from + width * random.below(count);
    let other = from + width * random.below(count);
    let copies = random.chance(50);
    for column in 0..width {
        if other + column < NUMBERS && one + column < NUMBERS {
            if copies {
                table[one + column] = table[other + column];
            } else {
                table.swap(one + column, other + column);
            }
        }
    }
}

/// A number in a place right behind a list's used rows.
fn disturb_behind(random: &mut Random, table: &mut [i32]) {
    let (from, width, count) = used_list(random, table);
    let place = (from + width * count + random.below(width)).min(NUMBERS - 1);
    table[place] = extreme(random);
}

/// A text's start or length out of its bounds, by little or by much.
fn disturb_span(random: &mut Random, table: &mut [i32], lent: usize) {
    let which = random.below(3);
    let (start, length) = (table[7 + 2 * which], table[8 + 2 * which]);
    let lent = lent as i32;
    let (start, length) = match random.below(8) {
        0 => (i32::MAX, 1),
        1 => (i32::MAX, i32::MAX),
        2 => (lent, 1),
        3 => (lent.max(1), 0),
        4 => (-1, 2),
        5 => (start, lent.saturating_sub(start).saturating_add(1)),
        6 => (start, length.saturating_sub(1)),
        _ => (start.saturating_add(1), length),
    };
    table[7 + 2 * which] = start;
    table[8 + 2 * which] = length;
}

/// A fresh text that is untrimmed, has a byte not allowed, or `##` right after a line feed.
fn disturb_text_bytes(random: &mut Random, table: &mut [i32], texts: &mut Vec<u8>) {
    let text = random
        .pick(&[" a", "a ", "\na", "a\n", "a\r", "\ta", "a\u{7f}b", "a\u{0}", "a\n##b", "a\u{e9}b", "a\n##"]);
    let which = random.below(3);
    table[7 + 2 * which] = texts.len() as i32;
    table[8 + 2 * which] = text.len() as i32;
    texts.extend(text.bytes());
}
