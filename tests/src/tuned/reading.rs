//! One line after the other, the state kept in the lent table and beside it.

use std::ops::Range;

use super::coordinates::Coordinates;
use super::formula::{self, Masses};
use super::lines::{self, is_blank, is_gap, Label};
use super::lists::{ATOMS, ATOMS_FROM, CHARGE, HELICAL_AT, RADICAL};
use super::rows::{self, Fields};
use super::{quick, symbols, FLOATS, NUMBERS};

pub struct Reading<'a> {
    pub(super) block: &'a [u8],
    pub(super) table: &'a mut [i32; NUMBERS],
    pub(super) positions: &'a mut [f64; FLOATS],
    pub(super) seen: u32,
    pub(super) record: Label,
    pub(super) text_from: usize,
    pub(super) atoms: usize,
    pub(super) bonds: usize,
    pub(super) centres: usize,
    pub(super) pairs: usize,
    pub(super) spreads: [usize; 2],
    /// The row without atoms of each list, 0 none.
    pub(super) bare: [usize; 2],
    pub(super) formula: Range<usize>,
    /// For each element without mass, the formula's total less the atoms'.
    pub(super) counts: [i32; 104],
    pub(super) masses: bool,
    pub(super) coordinates: Coordinates,
}

pub type Refused = Result<(), u32>;

impl<'a> Reading<'a> {
    pub fn new(block: &'a [u8], table: &'a mut [i32; NUMBERS], positions: &'a mut [f64; FLOATS]) -> Self {
        Reading {
            block,
            table,
            positions,
            seen: 0,
            record: Label::Unknown,
            text_from: 0,
            atoms: 0,
            bonds: 0,
            centres: 0,
            pairs: 0,
            spreads: [0; 2],
            bare: [0; 2],
            formula: 0..0,
            counts: [0; 104],
            masses: false,
            coordinates: Coordinates::default(),
        }
    }

    /// Every line; the refusal has the place of its line.
    pub fn block(&mut self) -> Result<(), (u32, usize)> {
        let mut at = self.first_line().map_err(|number| (number, 0))?;
        loop {
            at = match self.record {
                Label::Atomlist => self.quick_atoms(at),
                Label::Bondlist => self.quick_bonds(at),
                Label::Xyz => self.quick_coordinates(at),
                _ => at,
            };
            if at == self.block.len() {
                break;
            }
            at = self.line(at).map_err(|number| (number, at))?;
        }
        if self.seen & Label::End.bit() == 0 {
            return Err((16, self.block.len()));
        }
        self.publish();
        self.scale();
        Ok(())
    }

    fn first_line(&mut self) -> Result<usize, u32> {
        let line = lines::line(self.block, 0);
        let bytes = &self.block[..line.end];
        let label = if bytes.starts_with(b"##") { lines::label(bytes) } else { None };
        match label {
            _ if !line.allowed => Err(3),
            Some((Label::Title, value)) => {
                self.label_line(Label::Title, value..line.end)?;
                Ok(line.next)
            }
            _ => Err(4),
        }
    }

    /// Rows of ATOMLIST as long as they are plain and next; where the first other line starts.
    fn quick_atoms(&mut self, mut at: usize) -> usize {
        while let Some(row) = quick::atom(self.block, at) {
            let next = row.number == self.atoms + 1 && self.atoms < ATOMS;
            if !next || row.element == 0 || row.element >= symbols::DEUTERIUM {
                break;
            }
            self.add_atom(i32::from(row.element), 0, row.hydrogens);
            at = row.next;
        }
        at
    }

    /// Rows of BONDLIST as long as they are plain and sound.
    fn quick_bonds(&mut self, mut at: usize) -> usize {
        while let Some(row) = quick::bond(self.block, at) {
            let bond = (row.one as i32, row.other as i32, row.kind);
            if self.bond(bond).is_err() {
                break;
            }
            at = row.next;
        }
        at
    }

    /// Rows of XYZ as long as they are plain and sound.
    fn quick_coordinates(&mut self, mut at: usize) -> usize {
        while let Some(row) = quick::coordinates(self.block, at) {
            if self.coordinates(row.atom, row.values).is_err() {
                break;
            }
            at = row.next;
        }
        at
    }

    /// Any line but the first; where the next one starts.
    fn line(&mut self, at: usize) -> Result<usize, u32> {
        let line = lines::line(self.block, at);
        if !line.allowed {
            return Err(3);
        }
        let bytes = &self.block[at..line.end];
        if bytes.starts_with(b"##") {
            let (label, value) = lines::label(bytes).ok_or(5u32)?;
            if self.seen & label.barred_by() != 0 {
                return Err(6);
            }
            self.close_text(at);
            self.label_line(label, at + value..line.end)?;
        } else if self.seen & Label::End.bit() != 0 {
            if !bytes.iter().all(|byte| is_blank(*byte)) {
                return Err(17);
            }
        } else {
            self.further(bytes)?;
        }
        Ok(line.next)
    }

    /// A label line at its place; its value is the record's first line.
    fn label_line(&mut self, label: Label, value: Range<usize>) -> Refused {
        if self.seen & Label::End.bit() != 0 {
            return Err(17);
        }
        self.record = label;
        if label == Label::Unknown {
            return Ok(());
        }
        self.text_from = value.start;
        let row = &self.block[value.clone()];
        match label {
            Label::Title | Label::Origin | Label::Owner => {}
            Label::JcampCs => self.version(row)?,
            Label::Molform => self.take_formula(value)?,
            Label::BlockId => self.block_id(row)?,
            Label::MaxXyz => self.most(row)?,
            Label::XyzFactor => self.factor(row)?,
            Label::End => self.end(row)?,
            _ => self.further(row)?,
        }
        self.seen |= label.bit();
        Ok(())
    }

    /// A line of the current record.
    fn further(&mut self, line: &[u8]) -> Refused {
        if matches!(self.record, Label::Title | Label::Origin | Label::Owner | Label::Unknown) {
            return Ok(());
        }
        let row = lines::without_comment(line);
        if row.iter().all(|byte| is_blank(*byte)) {
            return Ok(());
        }
        match self.record {
            Label::Atomlist => self.atom_row(row),
            Label::Bondlist => self.bond(rows::bond(row).ok_or(9u32)?),
            Label::Charge => self.spread(CHARGE, row),
            Label::Radical => self.spread(RADICAL, row),
            Label::Stereocenter => self.centre(row),
            Label::Stereopair => self.pair(row),
            Label::Stereomolecule => self.helical(row),
            Label::Xyz => self.coordinate_row(row),
            _ => Err(9),
        }
    }

    /// The running text ends before the label line at a place.
    fn close_text(&mut self, at: usize) {
        let which = match self.record {
            Label::Title => 0,
            Label::Origin => 1,
            Label::Owner => 2,
            _ => return,
        };
        let (mut start, mut end) = (self.text_from, at);
        while start < end && is_gap(self.block[start]) {
            start += 1;
        }
        while start < end && is_gap(self.block[end - 1]) {
            end -= 1;
        }
        if start < end {
            self.table[7 + 2 * which] = start as i32;
            self.table[8 + 2 * which] = (end - start) as i32;
        }
    }

    fn version(&self, value: &[u8]) -> Refused {
        let mut fields = Fields::new(lines::without_comment(value));
        match (fields.next(), fields.next()) {
            (Some(b"3.7"), None) => Ok(()),
            _ => Err(7),
        }
    }

    fn block_id(&mut self, value: &[u8]) -> Refused {
        let mut fields = Fields::new(lines::without_comment(value));
        let number = fields.next().and_then(rows::unsigned);
        match (number, fields.next()) {
            (Some(0), None) => Err(10),
            (Some(number), None) => {
                self.table[6] = number;
                Ok(())
            }
            _ => Err(9),
        }
    }

    fn take_formula(&mut self, value: Range<usize>) -> Refused {
        let formula = lines::without_comment(&self.block[value.clone()]);
        self.formula = value.start..value.start + formula.len();
        let (counts, masses) = (&mut self.counts, &mut self.masses);
        formula::entries(formula, |entry| match symbols::nuclide(entry.element, entry.mass) {
            Some((element, 0)) => counts[element as usize] += entry.count,
            _ => *masses = true,
        })
    }

    /// The one row of STEREOMOLECULE; its YES is kept in the table.
    fn helical(&mut self, row: &[u8]) -> Refused {
        let mut fields = Fields::new(row);
        match (fields.next(), fields.next()) {
            (Some(b"YES"), None) if self.table[HELICAL_AT] == 0 => {
                self.table[HELICAL_AT] = 1;
                Ok(())
            }
            _ => Err(9),
        }
    }

    /// The END line: 8, 9, 13, 15, 41 and 42.
    fn end(&self, value: &[u8]) -> Refused {
        let needed = Label::JcampCs.bit() | Label::Origin.bit() | Label::Owner.bit() | Label::Molform.bit();
        if self.seen & needed != needed || self.atoms == 0 {
            return Err(8);
        }
        let helical = self.table[HELICAL_AT] == 1;
        let lacks_the_yes = !helical && self.seen & Label::Stereomolecule.bit() != 0;
        if lacks_the_yes || !lines::without_comment(value).iter().all(|byte| is_blank(*byte)) {
            return Err(9);
        }
        if helical && self.centres + self.pairs > 0 {
            return Err(13);
        }
        let agree = self.counts.iter().all(|count| *count == 0) && (!self.masses || self.masses_agree());
        if !agree {
            return Err(15);
        }
        let together = Label::MaxXyz.bit() | Label::XyzFactor.bit() | Label::Xyz.bit();
        if self.seen & together != 0 && self.seen & together != together {
            return Err(41);
        }
        if self.coordinates.pass_the_most() {
            return Err(42);
        }
        Ok(())
    }

    fn masses_agree(&self) -> bool {
        let atoms = &self.table[ATOMS_FROM..ATOMS_FROM + 5 * self.atoms];
        Masses::of(atoms).agree(&self.block[self.formula.clone()])
    }
}
