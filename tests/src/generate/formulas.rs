//! Formulas of sound blocks in every allowed shape: the totals in fragments of any entries, or one
//! fragment for each group as request L1 writes them, in any order.

use super::spelling::Spelling;
use crate::independent::formula::listed;
use crate::independent::groups::groups;
use crate::independent::table::{Atom, Structure};

/// What stands between two entries, in any fragments or in one.
const ANY: [&str; 12] = ["*", " * ", "\t", "  ", "", "", "", " ", " ", " ", " ", " "];
const WITHIN: [&str; 7] = ["\t", "  ", "", "", " ", " ", " "];

/// What stands between two groups' fragments.
const BETWEEN: [&str; 8] = [" * ", " * ", " * ", "*", "* ", " *", "\t*", " *\r "];

impl Spelling<'_> {
    /// A formula with the atoms' totals; three of ten have a fragment for each group.
    pub fn formula(&mut self, content: &Structure) -> String {
        if self.random.chance(70) {
            return self.joined(&content.atoms, &ANY);
        }
        let mut groups = groups(content);
        if self.random.chance(60) {
            self.random.shuffle(&mut groups);
        }
        let parting = self.random.pick(&BETWEEN);
        let mut fragments = Vec::new();
        for group in groups {
            let atoms: Vec<Atom> = group.into_iter().map(|atom| content.atoms[atom - 1]).collect();
            fragments.push(self.joined(&atoms, &WITHIN));
        }
        fragments.join(parting)
    }

    /// The entries of some atoms in any order, with what may part them.
    fn joined(&mut self, atoms: &[Atom], partings: &[&str]) -> String {
        let mut entries = self.entries(atoms);
        self.random.shuffle(&mut entries);
        let mut formula = entries.remove(0);
        for entry in entries {
            let needs_blank =
                formula.ends_with(|last: char| last.is_ascii_uppercase()) || entry.starts_with('^');
            formula += match self.random.pick(partings) {
                "" if needs_blank => " ",
                parting => parting,
            };
            formula += &entry;
        }
        formula
    }

    /// The totals of some atoms, now and then one of them in several entries.
    fn entries(&mut self, atoms: &[Atom]) -> Vec<String> {
        let mut entries = Vec::new();
        for ((element, mass), total) in listed(atoms) {
            let mut rest = total as i32;
            while rest > 1 && self.noisy() {
                let part = self.random.between(1, rest - 1);
                entries.push(self.entry(element, mass, part));
                rest -= part;
            }
            entries.push(self.entry(element, mass, rest));
        }
        entries
    }

    fn entry(&mut self, element: i32, mass: i32, count: i32) -> String {
        let symbol = self.symbol(element, mass);
        let slash = if self.random.chance(15) { "/" } else { "" };
        if count == 1 && !self.noisy() {
            return symbol;
        }
        format!("{symbol}{slash}{}", self.number(count))
    }
}
