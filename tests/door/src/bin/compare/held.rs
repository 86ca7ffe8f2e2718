//! What was compared and what differed, and the guards around what is lent.

use std::collections::BTreeMap;
use std::fmt::{Debug, Display};
use std::ops::Range;

/// At most so many differences are printed.
const SHOWN: u64 = 20;

#[derive(Default)]
pub struct Held {
    pub blocks: u64,
    pub files: u64,
    pub tables: u64,
    compared: u64,
    differ: u64,
    readings: BTreeMap<u32, u64>,
    by_coordinates: BTreeMap<u32, u64>,
    by_helical: BTreeMap<&'static str, u64>,
    by_fragments: BTreeMap<&'static str, u64>,
    writings: BTreeMap<u32, u64>,
}

impl Held {
    /// Counts the answer to a block, and the refusal that its records of coordinates gave.
    pub fn read(&mut self, number: u32, by_coordinates: Option<u32>) {
        *self.readings.entry(number).or_default() += 1;
        if let Some(number) = by_coordinates {
            *self.by_coordinates.entry(number).or_default() += 1;
        }
    }

    /// Counts a refusal that STEREOMOLECULE gave to a block, or number 13 to a table.
    pub fn helical(&mut self, refusal: Option<&'static str>) {
        if let Some(refusal) = refusal {
            *self.by_helical.entry(refusal).or_default() += 1;
        }
    }

    /// Counts what a sound table's groups decide in its form.
    pub fn fragments(&mut self, told: Vec<&'static str>) {
        for one in told {
            *self.by_fragments.entry(one).or_default() += 1;
        }
    }

    /// Counts the answer to a table.
    pub fn written(&mut self, number: u32) {
        *self.writings.entry(number).or_default() += 1;
    }

    /// Compares two values; what they are is only spelt where they differ.
    pub fn same<Value: PartialEq + Debug>(
        &mut self,
        what: &str,
        input: &[u8],
        proved: Value,
        independent: Value,
    ) {
        self.compared += 1;
        if proved == independent {
            return;
        }
        self.differ += 1;
        if self.differ <= SHOWN {
            println!(
                "{what}: proved {proved:?}, independent {independent:?}, input \"{}\"",
                input.escape_ascii()
            );
        }
    }

    /// Compares two lists; the first place where they differ is told.
    pub fn same_list<Value: PartialEq + Debug>(
        &mut self,
        what: &str,
        input: &[u8],
        proved: &[Value],
        independent: &[Value],
    ) {
        if proved == independent {
            self.compared += 1;
            return;
        }
        let at = proved.iter().zip(independent).take_while(|(one, other)| one == other).count();
        let what = format!("{what}, first at {at}");
        self.same(&what, input, (proved.len(), proved.get(at)), (independent.len(), independent.get(at)));
    }

    /// Prints the counts and the closing line; the status.
    pub fn report(&self, seed: u64) -> i32 {
        println!("{} blocks, {} files, {} tables, seed {seed}", self.blocks, self.files, self.tables);
        println!("answers to blocks: {}", shown(&self.readings));
        println!("refused by the records of coordinates: {}", shown(&self.by_coordinates));
        println!("refused by STEREOMOLECULE: {}", shown(&self.by_helical));
        println!("answers to tables: {}", shown(&self.writings));
        println!("sound tables by their fragments: {}", shown(&self.by_fragments));
        println!("compare: {} passed, {} failed", self.compared - self.differ, self.differ);
        i32::from(self.differ > 0)
    }
}

fn shown<Answer: Display>(answers: &BTreeMap<Answer, u64>) -> String {
    answers.iter().map(|(answer, times)| format!("{answer} x{times}")).collect::<Vec<String>>().join(", ")
}

/// How many elements stand before and behind a lent part.
const AROUND: usize = 8;

/// Something lent, with guards around it.
pub struct Guarded<Element> {
    pub all: Vec<Element>,
    pub lent: Range<usize>,
}

impl<Element: Copy> Guarded<Element> {
    pub fn new(lent: &[Element], guard: Element) -> Self {
        let around = [guard; AROUND];
        Guarded { all: [&around, lent, &around].concat(), lent: AROUND..AROUND + lent.len() }
    }

    pub fn part(&self) -> &[Element] {
        &self.all[self.lent.clone()]
    }

    pub fn part_mut(&mut self) -> &mut [Element] {
        &mut self.all[self.lent.clone()]
    }
}

impl Guarded<f64> {
    /// Floats by their bits: no number is equal to itself, and -0.0 is another one than 0.0.
    pub fn bits(&self) -> Vec<u64> {
        self.all.iter().map(|float| float.to_bits()).collect()
    }
}
