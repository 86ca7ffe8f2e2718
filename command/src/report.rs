//! The report: a line for each piece that has something to tell, a closing line, the status.

use std::io::Write;
use std::process::exit;

use galebonnet::{door, refusals};

use crate::asked::Asked;

/// A part of a file, its place, and the line that it starts with.
pub struct Piece<'a> {
    pub file: &'a str,
    pub bytes: &'a [u8],
    pub start: usize,
    pub line: usize,
}

/// What was found of a block; the place is counted in the block.
pub struct Judged {
    pub number: u32,
    pub place: usize,
    pub atoms: i32,
    pub bonds: i32,
    /// How many atoms have a position.
    pub positions: usize,
    /// 1 where the molecule is handed as a whole, else 0.
    pub handed: i32,
}

/// What was seen in all files.
#[derive(Default)]
pub struct Seen {
    blocks: usize,
    refused: usize,
    stray: usize,
    pub bytes: usize,
    content: bool,
    unreadable: bool,
}

pub struct Report<'a> {
    asked: &'a Asked,
    out: &'a mut dyn Write,
    pub seen: Seen,
}

impl<'a> Report<'a> {
    pub fn new(asked: &'a Asked, out: &'a mut dyn Write) -> Self {
        Report { asked, out, seen: Seen::default() }
    }

    /// A file that cannot be walked.
    pub fn file(&mut self, file: &str, number: u32) {
        self.seen.content = true;
        self.put(&format!("{file}: refusal {number} ({})", refusals::text(number)));
    }

    pub fn unreadable(&mut self, file: &str, why: &std::io::Error) {
        self.seen.unreadable = true;
        eprintln!("galebonnet: {file}: {why}");
    }

    pub fn block(&mut self, piece: &Piece, judged: &Judged) {
        let Judged { number, place, atoms, bonds, positions, handed } = *judged;
        let (file, start, end) = (piece.file, piece.start, piece.start + piece.bytes.len());
        let line = piece.line + feeds(&piece.bytes[..place]);
        let place = start + place;
        let name = shown(piece.bytes);
        self.seen.blocks += 1;
        self.seen.refused += usize::from(number > 0);
        if self.asked.tsv {
            self.put(&format!(
                "{file}\tblock\t{start}\t{end}\t{number}\t{place}\t{line}\t{atoms}\t{bonds}\t{positions}\t{handed}\t{name}"
            ));
        } else if number > 0 {
            let reason = refusals::text(number);
            self.put(&format!(
                "{file}:{line}: refusal {number} ({reason}) at byte {place}, block \"{name}\""
            ));
        } else if self.asked.verbose {
            let placed = if positions > 0 { format!(", {positions} positions") } else { String::new() };
            let whole = if handed == 1 { ", handed as a whole" } else { "" };
            self.put(&format!(
                "{file}:{line}: accepted, {atoms} atoms, {bonds} bonds{placed}{whole}, block \"{name}\""
            ));
        }
    }

    pub fn stray(&mut self, piece: &Piece) {
        let (file, start, line, length) = (piece.file, piece.start, piece.line, piece.bytes.len());
        let content = !piece.bytes.iter().all(|byte| matches!(byte, b' ' | b'\t' | b'\r' | b'\n'));
        self.seen.stray += 1;
        self.seen.content |= content;
        if self.asked.tsv {
            self.put(&format!("{file}\tstray\t{start}\t{}\t\t{start}\t{line}\t\t\t\t\t", start + length));
        } else if content || self.asked.verbose {
            self.put(&format!("{file}:{line}: stray run of {length} bytes at byte {start}"));
        }
    }

    /// The closing line; the status.
    pub fn closed(mut self) -> i32 {
        let Seen { blocks, refused, stray, bytes, content, unreadable } = self.seen;
        let accepted = blocks - refused;
        if !self.asked.tsv {
            self.put(&format!(
                "{blocks} blocks, {accepted} accepted, {refused} refused, {stray} stray runs, {bytes} bytes"
            ));
        }
        match unreadable {
            true => 2,
            false => i32::from(refused > 0 || content),
        }
    }

    /// A line; a closed pipe ends the program quietly.
    fn put(&mut self, line: &str) {
        if writeln!(self.out, "{line}").is_err() {
            exit(2);
        }
    }
}

fn feeds(bytes: &[u8]) -> usize {
    bytes.iter().filter(|byte| **byte == b'\n').count()
}

/// The block's title on one line, cut to 60 characters; `?` where there is none.
fn shown(block: &[u8]) -> String {
    let title = door::name(block).map_or(&b"?"[..], |(start, length)| &block[start..start + length]);
    let text: String =
        String::from_utf8_lossy(title).chars().map(|c| if c.is_control() { ' ' } else { c }).collect();
    match text.char_indices().nth(60) {
        Some((at, _)) => format!("{}..", &text[..at]),
        None => text,
    }
}
