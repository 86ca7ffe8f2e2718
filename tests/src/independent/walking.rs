//! Walking a transfer file, the name to show and what the program `walk` prints: document 01,
//! "Walking a transfer file".

use super::lines::{label, lines, text, Label, Line};
use super::reading::read_table;
use super::table::NUMBERS;

/// One answer of the walk.
#[derive(Clone, Copy, Debug, PartialEq, Eq)]
pub enum Walked {
    Block { start: usize, end: usize },
    Stray { start: usize, end: usize },
    Finished,
    Refused(u32),
}

const LONGEST_FILE: usize = 16_777_216;
const LONGEST_INPUT: usize = 65_536;

fn is_title(line: &Line) -> bool {
    label(line.bytes) == Some(Label::Title)
}

fn is_end(line: &Line) -> bool {
    label(line.bytes) == Some(Label::End)
}

/// The answer at a place: the bytes from there on are treated as a file.
pub fn walk(file: &[u8], place: usize) -> Walked {
    if file.len() > LONGEST_FILE {
        return Walked::Refused(31);
    }
    if place > file.len() {
        return Walked::Refused(32);
    }
    let Some(first) = lines(file, place).next() else { return Walked::Finished };
    let mut later = lines(file, first.end);
    if is_title(&first) {
        // "It ends after its first END line, or before the next TITLE line, or with the file."
        let last = later.find(|line| is_end(line) || is_title(line));
        let end = last.map_or(file.len(), |line| if is_end(&line) { line.end } else { line.start });
        return Walked::Block { start: place, end };
    }
    // "All other stretches are stray runs, as long as they can be."
    let next = later.find(is_title);
    Walked::Stray { start: place, end: next.map_or(file.len(), |line| line.start) }
}

/// The answers for a file, from place 0 on, without the last one, `Finished`.
pub fn pieces(file: &[u8]) -> Vec<Walked> {
    let mut pieces = Vec::new();
    let mut place = 0;
    loop {
        let walked = walk(file, place);
        match walked {
            Walked::Block { end, .. } | Walked::Stray { end, .. } => place = end,
            Walked::Finished => return pieces,
            Walked::Refused(_) => {
                pieces.push(walked);
                return pieces;
            }
        }
        pieces.push(walked);
    }
}

/// "A part of the block, its title, or the caller's stand-in bytes where the title is empty or the
/// first line is no TITLE line."
pub fn name<'a>(block: &'a [u8], stand_in: &'a [u8]) -> &'a [u8] {
    let Some(first) = lines(block, 0).next() else { return stand_in };
    let (start, length) = text(block, &first);
    if !is_title(&first) || length == 0 {
        return stand_in;
    }
    &block[start..start + length]
}

/// What the program `walk` prints for its standard input.
pub fn walk_lines(file: &[u8]) -> String {
    if file.len() > LONGEST_INPUT {
        return "L\n".to_string();
    }
    pieces(file).iter().map(|piece| printed(file, piece)).collect()
}

/// "`B start end number place atoms bonds`, the place counted in the file (0 if accepted), and for
/// a stray run `S start end`."
fn printed(file: &[u8], piece: &Walked) -> String {
    match *piece {
        Walked::Block { start, end } => {
            let mut table = vec![0; NUMBERS];
            let answer = read_table(&file[start..end], &mut table);
            let place = if answer.number == 0 { 0 } else { start + answer.place };
            format!("B {start} {end} {} {place} {} {}\n", answer.number, table[0], table[1])
        }
        Walked::Stray { start, end } => format!("S {start} {end}\n"),
        Walked::Finished | Walked::Refused(_) => String::new(),
    }
}
