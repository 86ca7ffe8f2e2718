//! The command line.

use std::process::exit;

const HELP: &str = "usage: galebonnet check [--verbose] [--tsv] [FILE..]
       galebonnet canon [--verbose] [--tsv] [FILE..]

Reads transfer files of JCAMP-CS 3.7 blocks (standard input without FILE, or for `-`).

`check` prints a line for each refused block and each stray run with content:

    FILE:LINE: refusal NUMBER (REASON) at byte PLACE, block \"NAME\"
    FILE:LINE: stray run of N bytes at byte PLACE

LINE counts from 1 and PLACE from 0, both in the file; a block's name is its title. The last line
counts blocks, accepted, refused, stray runs and bytes.

`canon` writes every accepted block in the one written form to standard output, and prints what
`check` prints on standard error. A block that is accepted, but whose written form would pass 32,768
bytes, is reported as refusal 23 at its start and counts as refused.

    --verbose   a line for each sound block too, with its atoms, bonds, positions, where coordinates
                are given, and whether it is handed as a whole; and for stray runs of blanks
    --tsv       a row for each piece: file, kind, start, end, number, place, line, atoms, bonds,
                positions, handed (1 or 0), name

Status: 0 all sound, 1 something refused or a stray run with content, 2 bad use or a file that
cannot be read.
";

/// What the command line asks for.
pub struct Asked {
    pub canon: bool,
    pub verbose: bool,
    pub tsv: bool,
    pub files: Vec<String>,
}

/// What the words ask for; ends the program where they ask for help or for nothing it does.
pub fn asked(words: Vec<String>) -> Asked {
    let mut words = words.into_iter();
    let canon = match words.next().as_deref() {
        Some("check") => false,
        Some("canon") => true,
        Some("--help" | "-h") => help(),
        _ => usage("the first word is `check` or `canon`"),
    };
    let mut asked = Asked { canon, verbose: false, tsv: false, files: Vec::new() };
    for word in words {
        match word.as_str() {
            "--verbose" => asked.verbose = true,
            "--tsv" => asked.tsv = true,
            "--help" => help(),
            "-" => asked.files.push(word),
            _ if word.starts_with('-') => usage(&format!("{word} is no option")),
            _ => asked.files.push(word),
        }
    }
    if asked.files.is_empty() {
        asked.files.push(String::from("-"));
    }
    asked
}

fn help() -> ! {
    print!("{HELP}");
    exit(0)
}

fn usage(why: &str) -> ! {
    eprintln!("galebonnet: {why}; --help tells more");
    exit(2)
}
