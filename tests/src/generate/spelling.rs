//! How sound blocks are spelt: labels in any case with ` -/_` in them, blanks, comments, leading
//! zeros, texts over several lines, skipped records. Formulas stand in `formulas`.

use super::random::Random;
use crate::independent::coordinates::Factor;
use crate::independent::elements::SYMBOLS;

/// A block in the making. Each block has its own line end and its own share of noise.
pub struct Spelling<'a> {
    pub random: &'a mut Random,
    bytes: Vec<u8>,
    line_end: &'static str,
    noise: usize,
}

const SKIPPED: [&str; 13] = [
    "DATE",
    "TIME",
    "STEREOMOLECULES",
    "STEREO_MOLECUL",
    "MAX_RASTER",
    "XY_RASTER",
    "XYZ_SOURCE",
    "MAX_XY",
    "XYZ_FACTORS",
    "JCAMP-DX",
    "ENDE",
    "",
    "#END",
];
const WORDS: [&str; 15] =
    ["a", "acid", "of", "3.7", "$$", "$", "=", "##", "#", "x=y", "1 Ne", "END", "~", "bench-4", "YES"];
const HELICAL: [&str; 7] = [
    "STEREOMOLECULE",
    "STEREOMOLECULE",
    "Stereo Molecule",
    "stereo-molecule",
    "STEREO_MOLECULE",
    "stereo/Molecule",
    "-Stereo--Molecule_",
];

impl<'a> Spelling<'a> {
    pub fn new(random: &'a mut Random) -> Self {
        let line_end = if random.chance(12) { "\r\n" } else { "\n" };
        let noise = [0, 4, 12][random.below(3)];
        Spelling { random, bytes: Vec::new(), line_end, noise }
    }

    /// The block; sometimes its last line feed is missing.
    pub fn finished(mut self) -> Vec<u8> {
        if self.random.chance(5) {
            self.bytes.pop();
        }
        self.bytes
    }

    pub(super) fn noisy(&mut self) -> bool {
        self.random.chance(self.noise)
    }

    /// `##`, the label in some spelling, `=`.
    pub fn label(&mut self, name: &str) {
        self.bytes.extend(b"##");
        for letter in name.bytes() {
            while self.noisy() {
                self.bytes.push(self.random.byte(b" -/_"));
            }
            let is_dropped = b" -/_".contains(&letter);
            if !(is_dropped && self.noisy()) {
                let small = self.noisy();
                self.bytes.push(if small { letter.to_ascii_lowercase() } else { letter });
            }
        }
        self.bytes.push(b'=');
    }

    /// One of some spellings of a label, with its noise.
    pub fn label_among(&mut self, names: &[&str]) {
        let name = self.random.pick(names);
        self.label(name);
    }

    /// No or some blanks.
    fn blanks(&mut self) {
        while self.noisy() {
            self.bytes.push(self.random.byte(b" \t\r "));
        }
    }

    /// The rest of a line: blanks, perhaps a comment, the line end.
    pub fn end_line(&mut self) {
        self.blanks();
        if self.noisy() {
            self.bytes.extend(self.random.pick(&["$$", "$$ note", "$$$ 1 Ne", "$$=##END= x"]).bytes());
        }
        self.bytes.extend(self.line_end.bytes());
    }

    pub fn blank_line(&mut self) {
        self.blanks();
        self.bytes.extend(self.line_end.bytes());
    }

    /// A value after its label's `=`, the line's end, perhaps blank and comment lines.
    pub fn value(&mut self, value: &str) {
        if !self.noisy() {
            self.bytes.push(b' ');
        }
        self.blanks();
        self.bytes.extend(value.bytes());
        self.end_line();
        while self.noisy() {
            self.end_line();
        }
    }

    /// STEREOMOLECULE in one of its spellings with its YES: on the label line, on the next, or behind
    /// blank lines and comments.
    pub fn helical(&mut self) {
        self.label_among(&HELICAL);
        if self.random.chance(50) {
            self.value("YES");
            return;
        }
        self.end_line();
        while self.random.chance(40) {
            self.bytes
                .extend(self.random.pick(&["", " ", "\t", "\r", "$$", "$$ a helix", " $$ YES"]).bytes());
            self.bytes.extend(self.line_end.bytes());
        }
        self.blanks();
        self.bytes.extend(b"YES");
        self.end_line();
        while self.noisy() {
            self.end_line();
        }
    }

    /// A number with leading zeros now and then, six digits at most.
    pub fn number(&mut self, number: i32) -> String {
        let width = if self.noisy() { self.random.below(7) } else { 0 };
        format!("{number:0width$}")
    }

    /// A number with a sign now and then where none is needed; 0 with either one.
    pub fn signed(&mut self, number: i32) -> String {
        let digits = self.number(number.abs());
        let sign = match number {
            ..0 => "-",
            0 if self.random.chance(20) => "-",
            _ if self.random.chance(15) => "+",
            _ => "",
        };
        format!("{sign}{digits}")
    }

    /// A factor with leading zeros now and then, nine digits at most; a point behind the last digit
    /// may be left out.
    pub fn factor(&mut self, factor: Factor) -> String {
        let decimals = factor.decimals as usize;
        let wider = if self.random.chance(40) { self.random.below(10) } else { 0 };
        let width = decimals.max(wider);
        let mut text = format!("{:0width$}", factor.digits);
        if decimals > 0 || self.random.chance(30) {
            text.insert(text.len() - decimals, '.');
        }
        text
    }

    /// A symbol, hydrogen 2 and 3 in both spellings.
    pub fn symbol(&mut self, element: i32, mass: i32) -> String {
        match (element, mass) {
            (1, 2) if self.random.chance(70) => "D".to_string(),
            (1, 3) if self.random.chance(70) => "T".to_string(),
            (_, 0) => SYMBOLS[element as usize - 1].to_string(),
            _ => {
                let width = if self.noisy() { self.random.below(4) } else { 0 };
                format!("^{mass:0width$}{}", SYMBOLS[element as usize - 1])
            }
        }
    }

    /// A list: its label, then its rows, the first one now and then on the label line.
    pub fn list(&mut self, name: &str, rows: Vec<Vec<String>>) {
        self.label(name);
        let on_label_line = self.noisy();
        if !on_label_line || rows.is_empty() {
            self.end_line();
        }
        for row in rows {
            while self.noisy() {
                self.end_line();
            }
            self.blanks();
            for (index, field) in row.iter().enumerate() {
                if index > 0 {
                    self.bytes.push(self.random.byte(b"      \t\r"));
                    self.blanks();
                }
                self.bytes.extend(field.bytes());
            }
            self.end_line();
        }
    }

    /// A text record of no, one or several lines, none of them starting with `##`.
    pub fn text_record(&mut self, name: &str) {
        self.label(name);
        if !self.random.chance(8) {
            let mut text = String::from(if self.noisy() { "" } else { " " });
            for _ in 0..self.random.below(4) {
                text.push_str(self.random.pick(&WORDS));
                let parting = if self.noisy() { self.line_end } else { " " };
                text.push_str(parting);
            }
            self.bytes.extend(text.replace("\n##", "\n ##").trim_end_matches(' ').bytes());
        }
        self.bytes.extend(self.line_end.bytes());
        while self.noisy() {
            self.blank_line();
        }
    }

    /// Now and then a record with an unknown label and lines that are not looked into.
    pub fn skipped_records(&mut self) {
        while self.random.chance(self.noise / 3 + 1) {
            let name = self.random.pick(&SKIPPED);
            self.label(name);
            for _ in 0..self.random.below(3) {
                self.bytes.extend(self.random.pick(&WORDS).replace("##", " ##").bytes());
                self.bytes.extend(self.line_end.bytes());
            }
            self.bytes.extend(self.line_end.bytes());
        }
    }
}
