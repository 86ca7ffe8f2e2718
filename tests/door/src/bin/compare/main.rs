//! The proved library held against the independent reader and writer, over the C door.
//!
//! `compare CASES SEED TABLES`, from the project's root, runs the named blocks and then CASES generated cases, ten blocks to one transfer file, and compares: number and
//! place of check and read, every number of the table, every bit of the positions, the name; the walk from many places of a file; and what stands around everything lent.
//! Then it writes the samples' tables, the named tables and TABLES generated ones, sound, disturbed and extreme: number, count, whole buffer; and what was written is read again.
//! `compare coordinates CASES SEED` runs CASES generated blocks with coordinates and nothing else; `compare helical CASES SEED` CASES generated blocks with STEREOMOLECULE,
//! for each four a table with number 13 set and for each ten a transfer file of such blocks; `compare fragments CASES SEED` the named tables and CASES generated ones of several groups,
//! for each four a block of several groups, written too where it is accepted, and for each 40 a transfer file of such blocks. It prints what differs, how often each refusal
//! occurred, how many sound tables have several groups, and a closing line.

mod blocks;
mod files;
mod held;
mod samples;
mod tables;

use std::env;
use std::process::exit;

use blocks::LONG;
use galebonnet_tests::generate::{self, Random, TableCase};
use galebonnet_tests::independent;
use held::Held;

fn main() {
    let words: Vec<String> = env::args().skip(1).collect();
    let mut held = Held::default();
    let seed = match words.iter().map(String::as_str).collect::<Vec<_>>()[..] {
        ["coordinates", cases, seed] => {
            generated_coordinates(&mut held, asked(cases), asked(seed));
            asked(seed)
        }
        ["helical", cases, seed] => {
            generated_helical(&mut held, asked(cases), asked(seed));
            asked(seed)
        }
        ["fragments", cases, seed] => {
            generated_fragments(&mut held, asked(cases), asked(seed));
            asked(seed)
        }
        [cases, seed, tables] => {
            everything(&mut held, asked(cases), asked(seed), asked(tables));
            asked(seed)
        }
        _ => usage(),
    };
    exit(held.report(seed));
}

fn usage() -> ! {
    eprintln!(
        "usage, from the project's root: compare CASES SEED TABLES | compare coordinates CASES SEED | compare helical CASES SEED | compare fragments CASES SEED"
    );
    exit(2)
}

/// A number of the command line.
fn asked(word: &str) -> u64 {
    word.parse().unwrap_or_else(|_| usage())
}

fn everything(held: &mut Held, cases: u64, seed: u64, tables: u64) {
    for (name, block) in generate::limit_blocks() {
        blocks::compared(held, &name, &block, LONG);
    }
    files::limits(held);
    generated(held, cases, seed);
    samples::compared(held);
    named_tables(held);
    generated_tables(held, tables, seed);
}

/// Tables of so many numbers and floats are lent in turn: five of 25 cases with one that is short, three with one that is longer.
fn lent(case: u64) -> (usize, usize) {
    match case % 25 {
        0 => (3855, 1024),
        1 => (3856, 1023),
        2 => (0, 1024),
        3 => (3856, 0),
        4 => (3855, 1023),
        5 => (3860, 1024),
        6 => (3856, 1025),
        7 => (4000, 2000),
        _ => LONG,
    }
}

fn generated_coordinates(held: &mut Held, cases: u64, seed: u64) {
    let mut random = Random::new(seed);
    for case in 0..cases {
        let block = generate::coordinate_block(&mut random);
        blocks::compared(held, "generated with coordinates", &block, lent(case));
    }
}

fn generated_helical(held: &mut Held, cases: u64, seed: u64) {
    let mut random = Random::new(seed);
    for case in 0..cases {
        let block = generate::helical_block(&mut random);
        blocks::compared(held, "generated with STEREOMOLECULE", &block, lent(case));
        if case % 4 == 3 {
            tables::compared(held, &generate::helical_table_case(&mut random));
        }
        if case % 10 == 9 {
            let file = generate::helical_file(&mut random);
            files::compared(held, &mut random, &file);
        }
    }
}

fn named_tables(held: &mut Held) {
    for (_, case) in generate::fragment_limits() {
        tables::compared(held, &case);
    }
}

fn generated_fragments(held: &mut Held, cases: u64, seed: u64) {
    named_tables(held);
    let mut random = Random::new(seed);
    for case in 0..cases {
        tables::compared(held, &generate::fragment_table_case(&mut random));
        if case % 4 == 3 {
            let block = generate::fragment_block(&mut random);
            blocks::compared(held, "generated with several groups", &block, lent(case / 4));
            let mut table = vec![0; LONG.0];
            if independent::read_table(&block, &mut table).number == 0 {
                tables::compared(held, &TableCase { table, texts: block, room: 32_768 });
            }
        }
        if case % 40 == 39 {
            let file = generate::fragment_file(&mut random);
            files::compared(held, &mut random, &file);
        }
    }
}

fn generated(held: &mut Held, cases: u64, seed: u64) {
    let mut random = Random::new(seed);
    for case in 0..cases {
        if case % 11 == 10 {
            let file = generate::file(&mut random);
            files::compared(held, &mut random, &file);
        } else {
            let block = generate::block(&mut random);
            blocks::compared(held, "generated", &block, lent(case));
        }
    }
}

fn generated_tables(held: &mut Held, tables: u64, seed: u64) {
    let mut random = Random::new(seed);
    for case in 0..tables {
        let case = if case % 5 == 4 {
            generate::extreme_case(&mut random)
        } else {
            generate::table_case(&mut random)
        };
        tables::compared(held, &case);
    }
}
