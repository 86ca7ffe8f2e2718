//! Writes the stored run of the program `cases`: its input from the generator, its output as the
//! independent reader answers. From the project's root, `cases FOLDER` writes FOLDER/stdin and
//! FOLDER/stdout (the gate's stand in crates/cases) and prints each case's line with its name.

use std::path::Path;
use std::process::exit;
use std::{env, fs};

use galebonnet_tests::generate::cases::{case_input, cases};
use galebonnet_tests::independent::case_lines;

fn main() {
    let Some(folder) = env::args().nth(1) else {
        eprintln!("usage: cases FOLDER");
        exit(2);
    };
    let input = case_input();
    let lines = case_lines(&input);
    for (case, line) in cases().iter().zip(lines.lines()) {
        println!("{line}\t{}", case.name);
    }
    println!("{} cases, {} bytes", lines.lines().count(), input.len());
    let folder = Path::new(&folder);
    let written = fs::write(folder.join("stdin"), input).and(fs::write(folder.join("stdout"), lines));
    if let Err(why) = written {
        eprintln!("cases: {}: {why}", folder.display());
        exit(2);
    }
}
