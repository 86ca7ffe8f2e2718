//! The formula: document 01, "Rows" (MOLFORM) and the totals compared at END.
//!
//! `*` parts the fragments, blanks part the words of a fragment. So "`^` stands at the start or
//! after a blank or `*`" means: at the start of a word; and "followed by a blank, `*` or the end"
//! means: at the end of a word.

use super::elements;
use super::rows::{digits, fields, symbol, Symbol};
use super::table::Atom;
use std::collections::BTreeMap;

/// For every element and mass, how many atoms.
pub type Totals = BTreeMap<(i32, i32), i64>;

/// An entry as it stands: a symbol and its count, if one is written.
#[derive(Clone, Copy, Debug, PartialEq)]
pub struct Entry<'a> {
    pub symbol: Symbol<'a>,
    pub count: Option<i32>,
}

/// The entries of all fragments, or none where the value's shape is wrong.
pub fn entries(value: &[u8]) -> Option<Vec<Entry<'_>>> {
    let mut entries = Vec::new();
    for fragment in value.split(|&byte| byte == b'*') {
        let words = fields(fragment);
        if words.is_empty() {
            return None;
        }
        for word in words {
            entries.extend(word_entries(word)?);
        }
    }
    Some(entries)
}

/// The entries of one word: each starts with its upper-case letter, the first one also with `^`.
fn word_entries(word: &[u8]) -> Option<Vec<Entry<'_>>> {
    let first = word.iter().position(u8::is_ascii_uppercase)?;
    let mut starts: Vec<usize> = vec![0];
    starts.extend((first + 1..word.len()).filter(|&place| word[place].is_ascii_uppercase()));
    let mut entries = Vec::new();
    for (index, &start) in starts.iter().enumerate() {
        let end = starts.get(index + 1).copied().unwrap_or(word.len());
        let entry = entry(&word[start..end])?;
        let bare = entry.symbol.letters.len() == 1 && entry.count.is_none();
        if bare && end != word.len() {
            return None;
        }
        entries.push(entry);
    }
    Some(entries)
}

/// "A symbol and an optional count (1 to 6 digits, `/` before them optional)."
fn entry(bytes: &[u8]) -> Option<Entry<'_>> {
    let upper = bytes.iter().position(u8::is_ascii_uppercase)?;
    let is_lower = bytes.get(upper + 1).is_some_and(u8::is_ascii_lowercase);
    let letters_end = if is_lower { upper + 2 } else { upper + 1 };
    let symbol = symbol(&bytes[..letters_end])?;
    let count = match &bytes[letters_end..] {
        [] => None,
        [b'/', count @ ..] => Some(digits(count, 6)?),
        count => Some(digits(count, 6)?),
    };
    Some(Entry { symbol, count })
}

/// The totals of a formula, or every refusal number its line breaks.
pub fn totals(value: &[u8]) -> Result<Totals, Vec<u32>> {
    let Some(entries) = entries(value) else { return Err(vec![9]) };
    let mut broken = Vec::new();
    let mut totals = Totals::new();
    for entry in entries {
        let mass_fits = entry.symbol.mass.is_none_or(|mass| (1..=300).contains(&mass));
        let count = entry.count.unwrap_or(1);
        if !mass_fits || !(1..=9999).contains(&count) {
            broken.push(10);
        }
        match elements::element(entry.symbol.letters, entry.symbol.mass) {
            Some(nuclide) => *totals.entry(nuclide).or_insert(0) += i64::from(count),
            None => broken.push(12),
        }
    }
    if broken.is_empty() {
        Ok(totals)
    } else {
        Err(broken)
    }
}

/// The totals of listed atoms, "with implied hydrogens counted as hydrogen without mass".
pub fn listed(atoms: &[Atom]) -> Totals {
    let mut totals = Totals::new();
    for atom in atoms {
        *totals.entry((atom.element, atom.mass)).or_insert(0) += 1;
        if atom.hydrogens > 0 {
            *totals.entry((1, 0)).or_insert(0) += i64::from(atom.hydrogens);
        }
    }
    totals
}
