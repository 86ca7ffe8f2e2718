//! Reading one block: document 01, "Lines and labels" (order), "Rows" (version, BLOCK_ID, END) and
//! "Refusal numbers"; request L2 (the three records of coordinates, the position table, 41 and 42);
//! request L4 (STEREOMOLECULE). On each line every broken refusal number is collected; the earliest
//! line with one decides, by its least.

use super::coordinates::{self, FLOATS};
use super::formula::{self, Totals};
use super::lines::{self, is_allowed, is_blank, label, starts_label, Label, Line};
use super::lists::{self, Broken};
use super::rows;
use super::table::{laid_out, Structure, LONGEST_BLOCK, NUMBERS};

/// A refusal number and its place; accepted is 0, place 0.
#[derive(Clone, Copy, Debug, PartialEq, Eq)]
pub struct Answer {
    pub number: u32,
    pub place: usize,
}

/// Reads a block into a structure table and a position table. Where one of them is short, both stay
/// untouched; other refusals clear both.
pub fn read(block: &[u8], table: &mut [i32], positions: &mut [f64]) -> Answer {
    if table.len() < NUMBERS || positions.len() < FLOATS {
        return Answer { number: 1, place: 0 };
    }
    match structure(block) {
        Ok(structure) => {
            table[..NUMBERS].copy_from_slice(&laid_out(&structure));
            positions[..FLOATS].copy_from_slice(&coordinates::placed(&structure.coordinates));
            Answer { number: 0, place: 0 }
        }
        Err(refusal) => {
            table[..NUMBERS].fill(0);
            positions[..FLOATS].fill(0.0);
            refusal
        }
    }
}

/// The reading for those who look at the structure table alone.
pub fn read_table(block: &[u8], table: &mut [i32]) -> Answer {
    read(block, table, &mut [0.0; FLOATS])
}

/// The C host's check: "refusal number times 2^32, plus the place".
pub fn check(block: &[u8]) -> u64 {
    match structure(block) {
        Ok(_) => 0,
        Err(refusal) => (u64::from(refusal.number) << 32) + refusal.place as u64,
    }
}

/// The block's structure, or the refusal of its earliest line that breaks a rule.
pub fn structure(block: &[u8]) -> Result<Structure, Answer> {
    if block.len() > LONGEST_BLOCK {
        return Err(Answer { number: 2, place: 0 });
    }
    if block.is_empty() {
        return Err(Answer { number: 4, place: 0 });
    }
    let mut reading = Reading::before_the_first_line(block);
    for line in lines::lines(block, 0) {
        let broken = reading.take(&line);
        if let Some(&number) = broken.iter().min() {
            return Err(Answer { number, place: line.start });
        }
    }
    if !reading.has_ended() {
        return Err(Answer { number: 16, place: block.len() });
    }
    Ok(reading.structure)
}

/// What the lines so far have given; none of them broke a rule.
struct Reading<'a> {
    block: &'a [u8],
    seen: Vec<Label>,
    record: Label,
    formula: Totals,
    structure: Structure,
}

impl<'a> Reading<'a> {
    fn before_the_first_line(block: &'a [u8]) -> Self {
        Reading {
            block,
            seen: Vec::new(),
            record: Label::Unknown,
            formula: Totals::new(),
            structure: Structure::default(),
        }
    }

    fn has_ended(&self) -> bool {
        self.seen.contains(&Label::End)
    }

    /// Takes the next line and answers every refusal number that it breaks.
    fn take(&mut self, line: &Line) -> Broken {
        let mut broken = Vec::new();
        if !line.bytes.iter().all(|&byte| is_allowed(byte)) {
            broken.push(3);
        }
        if line.start == 0 && label(line.bytes) != Some(Label::Title) {
            broken.push(4);
        }
        if starts_label(line.bytes) && label(line.bytes).is_none() {
            broken.push(5);
        }
        if label(line.bytes).is_some_and(|label| self.is_repeated_or_out_of_order(label)) {
            broken.push(6);
        }
        if self.has_ended() {
            if !line.bytes.iter().all(|&byte| is_blank(byte)) {
                broken.push(17);
            }
        } else if let Some(label) = label(line.bytes) {
            broken.extend(self.take_label_line(label, line));
        } else if !starts_label(line.bytes) {
            broken.extend(self.take_row(lines::without_comment(line.bytes)));
        }
        broken
    }

    /// "Each at most once. A label is out of order if a known label that must follow it has been
    /// seen."
    fn is_repeated_or_out_of_order(&self, label: Label) -> bool {
        let followed = lines::must_follow(label).iter().any(|later| self.seen.contains(later));
        label != Label::Unknown && (self.seen.contains(&label) || followed)
    }

    /// A label line before END, with "what follows `=`" as the record's first line.
    fn take_label_line(&mut self, label: Label, line: &Line) -> Broken {
        let value = lines::without_comment(lines::value(line.bytes));
        let fields = rows::fields(value);
        let broken = match label {
            Label::JcampCs if fields == [b"3.7"] => vec![],
            Label::JcampCs => vec![7],
            Label::Molform => self.take_formula(value),
            Label::BlockId => self.take_block_id(&fields),
            Label::MaxXyz => self.take_most(&fields),
            Label::XyzFactor => self.take_factor(&fields),
            Label::End => self.broken_at_end(&fields),
            Label::Title => self.take_text(0, line),
            Label::Origin => self.take_text(1, line),
            Label::Owner => self.take_text(2, line),
            _ => {
                self.record = label;
                self.take_row(value)
            }
        };
        self.record = label;
        if label != Label::Unknown {
            self.seen.push(label);
        }
        broken
    }

    fn take_formula(&mut self, value: &[u8]) -> Broken {
        match formula::totals(value) {
            Err(broken) => broken,
            Ok(totals) => {
                self.formula = totals;
                vec![]
            }
        }
    }

    /// One unsigned number, 1 to 999,999; an empty BLOCK_ID is refused 9.
    fn take_block_id(&mut self, fields: &[&[u8]]) -> Broken {
        let [field] = fields else { return vec![9] };
        match rows::unsigned(field) {
            None => vec![9],
            Some(0) => vec![10],
            Some(number) => {
                self.structure.block_id = number;
                vec![]
            }
        }
    }

    /// MAX_XYZ: an empty one is refused 9.
    fn take_most(&mut self, fields: &[&[u8]]) -> Broken {
        let most = coordinates::most(fields).map(|most| self.structure.coordinates.most = Some(most));
        most.err().unwrap_or_default()
    }

    /// XYZ_FACTOR: an empty one is refused 9.
    fn take_factor(&mut self, fields: &[&[u8]]) -> Broken {
        let factor =
            coordinates::factor(fields).map(|factor| self.structure.coordinates.factor = Some(factor));
        factor.err().unwrap_or_default()
    }

    fn take_text(&mut self, which: usize, line: &Line) -> Broken {
        self.structure.texts[which] = lines::text(self.block, line);
        vec![]
    }

    /// The END line: a record missing (8), a value (9), STEREOMOLECULE without one (9), "YES beside any
    /// centre or pair row" (13), formula and atoms different (15), "one or two of the three labels
    /// present without the rest" (41), a value above MAX_XYZ (42).
    fn broken_at_end(&self, fields: &[&[u8]]) -> Broken {
        let mut broken = Vec::new();
        let needed = [Label::JcampCs, Label::Origin, Label::Owner, Label::Molform];
        let is_missing = needed.iter().any(|label| !self.seen.contains(label));
        if is_missing || self.structure.atoms.is_empty() {
            broken.push(8);
        }
        if !fields.is_empty() || self.lacks_the_yes() {
            broken.push(9);
        }
        if self.has_yes_beside_rows() {
            broken.push(13);
        }
        if self.formula != formula::listed(&self.structure.atoms) {
            broken.push(15);
        }
        let together = [Label::MaxXyz, Label::XyzFactor, Label::Xyz];
        let present = together.iter().filter(|label| self.seen.contains(label)).count();
        if present == 1 || present == 2 {
            broken.push(41);
        }
        if self.structure.coordinates.pass_the_most() {
            broken.push(42);
        }
        broken
    }

    /// STEREOMOLECULE with "no value": its label was met, and no row below or beside it.
    fn lacks_the_yes(&self) -> bool {
        self.seen.contains(&Label::Stereomolecule) && !self.structure.helical
    }

    /// "YES beside any centre or pair row", whichever came first; a label without rows is none.
    fn has_yes_beside_rows(&self) -> bool {
        let has_rows = !self.structure.centres.is_empty() || !self.structure.pairs.is_empty();
        self.structure.helical && has_rows
    }

    /// A line of the current record, without its comment; "lines then blank are skipped".
    fn take_row(&mut self, row: &[u8]) -> Broken {
        let fields = rows::fields(row);
        if fields.is_empty() {
            return vec![];
        }
        let content = &mut self.structure;
        let atoms = &content.atoms;
        let taken = match self.record {
            Label::JcampCs | Label::Molform | Label::BlockId | Label::MaxXyz | Label::XyzFactor => {
                Err(vec![9])
            }
            Label::Atomlist => lists::atom(&fields, atoms).map(|atom| content.atoms.push(atom)),
            Label::Bondlist => {
                lists::bond(&fields, atoms, &content.bonds).map(|bond| content.bonds.extend(bond))
            }
            Label::Charge => {
                lists::charge(&fields, atoms, &content.charges).map(|row| content.charges.push(row))
            }
            Label::Radical => {
                lists::radical(&fields, atoms, &content.radicals).map(|row| content.radicals.push(row))
            }
            Label::Stereocenter => {
                lists::centre(&fields, atoms, &content.centres).map(|centre| content.centres.push(centre))
            }
            Label::Stereopair => {
                lists::pair(&fields, atoms, &content.pairs).map(|pair| content.pairs.push(pair))
            }
            Label::Stereomolecule => {
                lists::helical(&fields, content.helical).map(|()| content.helical = true)
            }
            Label::Xyz => coordinates::row(&fields, atoms, &content.coordinates.rows)
                .map(|row| content.coordinates.rows.push(row)),
            Label::Title | Label::Origin | Label::Owner | Label::End | Label::Unknown => Ok(()),
        };
        taken.err().unwrap_or_default()
    }
}
