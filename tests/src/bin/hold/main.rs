//! The definitions held against the independent reader.
//!
//! `hold COUNT SEED`, from the project's root, generates COUNT blocks, three blocks with coordinates, two blocks with
//! STEREOMOLECULE, two tables of several groups and three other tables to ten blocks and one transfer file to ten, and
//! states the independent reader's answer to each as a theorem by computation over the definitions of
//! `crates/format/specs`: for a block the number, the place, every number of the lent table and every float of the lent
//! positions; for a table the number, the count and every byte of the buffer; for a file its pieces, some single steps,
//! a name and a check. `hold coordinates COUNT SEED` states COUNT blocks with coordinates alone, `hold helical COUNT
//! SEED` COUNT blocks with STEREOMOLECULE and three tables with number 13 set to ten of them, `hold fragments COUNT
//! SEED` COUNT tables of several groups and one such block to ten of them, `hold limits` the named cases at and one
//! over every limit. The theorems stand in a repository of their own, and the prover checks them there: in a folder
//! among the temporary files, since the gate refuses files of the prover's anywhere in the project but in its crates.
//! It goes when they are checked; where one is refused it stays, and is named.

mod terms;
mod theorems;

use std::collections::BTreeMap;
use std::fmt::Display;
use std::path::Path;
use std::process::{self, exit, Command};
use std::str::FromStr;
use std::time::Instant;
use std::{env, fs};

use theorems::{
    block_cases, coordinate_cases, file_cases, fragment_cases, helical_cases, limit_cases, table_cases,
    Theorem,
};

/// How many theorems stand in one file.
const A_FILE: usize = 25;

fn main() {
    let words: Vec<String> = env::args().skip(1).collect();
    let named = words.join(" ");
    let theorems = match words.iter().map(String::as_str).collect::<Vec<_>>()[..] {
        ["limits"] => limit_cases(),
        ["coordinates", count, seed] => coordinate_cases(asked(count), asked(seed)),
        ["helical", count, seed] => helical_cases(asked(count), asked(seed)),
        ["fragments", count, seed] => fragment_cases(asked(count), asked(seed)),
        [count, seed] => generated(asked(count), asked(seed)),
        _ => usage(),
    };
    let began = Instant::now();
    let root = env::temp_dir().join(format!("galebonnet-held-{}", process::id()));
    laid_out(&root, &theorems).expect("the folder of the theorems can be written");
    let held = root.join("crates/held");
    let checked = Command::new("rt").arg("check").current_dir(&held).output().expect("rt runs");
    let said =
        String::from_utf8_lossy(&checked.stdout).into_owned() + &String::from_utf8_lossy(&checked.stderr);
    let refused: Vec<&str> = said.lines().filter(|line| line.contains(": error: `case_")).collect();
    refused.iter().take(20).for_each(|line| println!("{}", line.chars().take(400).collect::<String>()));
    report(&theorems, &named, began.elapsed().as_secs());
    if !checked.status.success() || said.contains("logic=not-proved") {
        if refused.is_empty() {
            println!("{said}");
        }
        println!("the definitions and the independent reader DIFFER: the theorems are in {}", root.display());
        exit(1);
    }
    fs::remove_dir_all(&root).expect("the folder of the theorems can be removed");
    println!("hold: {} passed, 0 failed", theorems.len());
}

fn usage() -> ! {
    eprintln!(
        "usage, from the project's root: hold COUNT SEED | hold coordinates COUNT SEED | hold helical COUNT SEED | hold fragments COUNT SEED | hold limits"
    );
    exit(2)
}

/// A number of the command line.
fn asked<Number: FromStr>(word: &str) -> Number {
    word.parse().unwrap_or_else(|_| usage())
}

fn generated(count: usize, seed: u64) -> Vec<Theorem> {
    let mut theorems = block_cases(count, seed);
    theorems.extend(coordinate_cases(count * 3 / 10, seed));
    theorems.extend(helical_cases(count * 2 / 10, seed));
    theorems.extend(fragment_cases(count * 2 / 10, seed));
    theorems.extend(table_cases(count * 3 / 10, seed));
    theorems.extend(file_cases(count / 10, seed));
    theorems
}

/// How often each refusal number is among the answers, and among those that the records of coordinates and
/// STEREOMOLECULE gave; and what the groups of the sound tables are.
fn report(theorems: &[Theorem], named: &str, seconds: u64) {
    let mut subjects: Vec<&str> = theorems.iter().map(|theorem| theorem.of).collect();
    subjects.dedup();
    for subject in subjects {
        let theirs: Vec<&Theorem> = theorems.iter().filter(|theorem| theorem.of == subject).collect();
        let numbers = theirs.iter().flat_map(|theorem| theorem.numbers.iter().copied());
        println!("{subject} {}:{}", theirs.len(), counted(numbers));
    }
    let by_coordinates = theorems.iter().filter_map(|theorem| theorem.by_coordinates);
    println!("refused by the records of coordinates:{}", counted(by_coordinates));
    let by_helical = theorems.iter().filter_map(|theorem| theorem.by_helical);
    println!("refused by STEREOMOLECULE:{}", counted(by_helical));
    let by_fragments = theorems.iter().flat_map(|theorem| theorem.by_fragments.iter().copied());
    println!("sound tables by their fragments:{}", counted(by_fragments));
    println!("hold {named}: {} theorems checked in {seconds} s", theorems.len());
}

fn counted<Refusal: Ord + Display>(refusals: impl Iterator<Item = Refusal>) -> String {
    let mut times: BTreeMap<Refusal, usize> = BTreeMap::new();
    for refusal in refusals {
        *times.entry(refusal).or_default() += 1;
    }
    let counts: Vec<String> = times.iter().map(|(refusal, times)| format!(" {refusal} x{times}")).collect();
    counts.join(",")
}

/// The repository of the theorems: the definitions as they are, without their laws, and the crate `held` over them.
fn laid_out(root: &Path, theorems: &[Theorem]) -> std::io::Result<()> {
    let _ = fs::remove_dir_all(root);
    let crates = root.join("crates");
    for name in ["lists", "format", "held"] {
        fs::create_dir_all(crates.join(name).join("src"))?;
        fs::create_dir_all(crates.join(name).join("proofs"))?;
        fs::write(crates.join(name).join("src/lib.rt"), "// Definitions only.\n")?;
    }
    for name in ["lists", "format"] {
        fs::create_dir_all(crates.join(name).join("specs"))?;
        for file in fs::read_dir(Path::new("crates").join(name).join("specs"))? {
            let file = file?;
            fs::copy(file.path(), crates.join(name).join("specs").join(file.file_name()))?;
        }
    }
    // the refusals that the definitions number are named in the code
    fs::write(
        crates.join("format/src/lib.rt"),
        "#![tactic(auto)]\n\npub mod refusal; // refusal.rt: why something is refused\n",
    )?;
    fs::copy("crates/format/src/refusal.rt", crates.join("format/src/refusal.rt"))?;
    fs::write(crates.join("lists/proofs/Lib.antt"), "-- No laws here.\n")?;
    fs::write(crates.join("format/proofs/Lib.antt"), "pub mod Computing\n")?;
    fs::copy("crates/format/proofs/Computing.antt", crates.join("format/proofs/Computing.antt"))?;
    fs::write(root.join("crates.txt"), "lists:\nformat: lists\nheld: lists format\n")?;
    let proofs = crates.join("held/proofs");
    let mut modules = String::new();
    for (file, some) in theorems.chunks(A_FILE).enumerate() {
        modules += &format!("pub mod Cases{file}\n");
        fs::write(proofs.join(format!("Cases{file}.antt")), theorems::file(some, file * A_FILE))?;
    }
    fs::write(proofs.join("Lib.antt"), modules)
}
