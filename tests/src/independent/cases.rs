//! What the program `cases` prints: for each case of its input a line `number place atoms bonds`.

use super::reading::read_table;
use super::table::NUMBERS;

/// A head: `T` or `S`, six digits, a line feed.
const HEAD: usize = 8;

/// The lines for an input of whole cases.
pub fn case_lines(mut input: &[u8]) -> String {
    let mut lines = String::new();
    while !input.is_empty() {
        let (head, rest) = input.split_at(HEAD);
        let digits = std::str::from_utf8(&head[1..7]).expect("six digits");
        let (block, later) = rest.split_at(digits.parse().expect("a length"));
        lines += &line(block, head[0] == b'S');
        input = later;
    }
    lines
}

/// The block read into a table of zeros, whole or one number too short.
fn line(block: &[u8], short: bool) -> String {
    let mut table = vec![0; NUMBERS - usize::from(short)];
    let answer = read_table(block, &mut table);
    format!("{} {} {} {}\n", answer.number, answer.place, table[0], table[1])
}
