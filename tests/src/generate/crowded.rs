//! Blocks whose lists are full, or one row over: the limits of document 01, "The structure table".

use super::random::Random;

/// The rows of a block with so many hydrogen atoms; each list is its rows, ready to be spelt.
#[derive(Clone, Default)]
pub struct Crowded {
    pub atoms: usize,
    pub bonds: Vec<String>,
    pub charges: Vec<String>,
    pub radicals: Vec<String>,
    pub centres: Vec<String>,
    pub pairs: Vec<String>,
    /// Further records before END, as they stand.
    pub further: String,
}

impl Crowded {
    pub fn with_atoms(atoms: usize) -> Self {
        Crowded { atoms, ..Crowded::default() }
    }

    /// The block, in the written form but for the rows' order.
    pub fn block(&self) -> Vec<u8> {
        let mut block = format!(
            "##TITLE= t\n##JCAMP-CS= 3.7\n##ORIGIN=\n##OWNER=\n##MOLFORM= H{}\n##ATOMLIST=\n",
            self.atoms
        );
        for number in 1..=self.atoms {
            block.push_str(&format!("{number} H\n"));
        }
        let lists = [
            ("BONDLIST", &self.bonds),
            ("CHARGE", &self.charges),
            ("RADICAL", &self.radicals),
            ("STEREOCENTER", &self.centres),
            ("STEREOPAIR", &self.pairs),
        ];
        for (label, rows) in lists {
            if !rows.is_empty() {
                block.push_str(&format!("##{label}=\n{}\n", rows.join("\n")));
            }
        }
        block.push_str(&self.further);
        block.push_str("##END=\n");
        block.into_bytes()
    }
}

/// The first so many pairs of atoms, each with what follows it in its row.
pub fn two_ends(atoms: usize, rows: usize, rest: &str) -> Vec<String> {
    let above = |lower: usize| (lower + 1..=atoms).map(move |higher| (lower, higher));
    let ends = (1..=atoms).flat_map(above);
    ends.take(rows).map(|(lower, higher)| format!("{lower} {higher} {rest}")).collect()
}

/// A row for each of the first so many atoms, spelt by a function.
pub fn each_atom(rows: usize, row: impl Fn(usize) -> String) -> Vec<String> {
    (1..=rows).map(row).collect()
}

/// A list at its limit, or one over; the lists that need few bytes more often than the others.
pub fn crowded_block(random: &mut Random) -> Vec<u8> {
    let over = random.below(3).min(1);
    let mut block = Crowded::with_atoms(65);
    match random.below(20) {
        0..=6 => block.charges = each_atom(64 + over, |atom| format!("-1 {atom}")),
        7..=12 => block.radicals = each_atom(64 + over, |atom| format!("1 {atom}")),
        13..=16 => {
            block.atoms = 17;
            block.pairs = two_ends(17, 128 + over, "P");
        }
        17 => {
            block.atoms = 129;
            block.centres = each_atom(128 + over, |atom| format!("{atom} M"));
        }
        18 => {
            block.atoms = 33;
            block.bonds = two_ends(33, 512 + over, "S");
        }
        _ => block.atoms = 256 + over,
    }
    if over == 1 && random.chance(10) {
        // The row too many without atoms.
        block.charges.truncate(64);
        block.charges.push("+1".to_string());
    }
    random.shuffle(&mut block.charges);
    random.shuffle(&mut block.pairs);
    block.block()
}
